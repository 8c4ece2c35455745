/* What the files of an agent have of each other; README.md has what an agent does. */
#pragma once

#include <errno.h>
#include <fcntl.h>
#include <inttypes.h>
#include <krb5.h>
#include <limits.h>
#include <stdarg.h>
#include <stdio.h>
#include <stdlib.h>
#include <string.h>
#include <sys/socket.h>
#include <sys/stat.h>
#include <sys/syscall.h>
#include <sys/un.h>
#include <unistd.h>

/* bytes of a line with its newline, and of a name and the words of an error as they stand in one */
#define LONGEST_LINE 1024
#define LONGEST_NAME 900
#define LONGEST_TEXT 110
#define MOST_COMPONENTS (LONGEST_NAME / 3 + 1)

/* a principal's two keys */
static const int key_types[2] = {18, 17};
static const unsigned key_sizes[2] = {32, 16};
typedef unsigned char key_pair[2][32];

/* what the database has of a principal */
struct held {
    uint32_t kvno;      /* the newest version, 0 where there is no key */
    int is_locked_down; /* whether nobody may change or read its keys */
    int has[2];         /* whether that version has the key under the default salt */
    key_pair keys;
};

/* main.c: the realm of all names; a line on standard error, lost where nobody takes it, without a key */
extern const char *realm;
void tell(const char *format, ...) __attribute__((format(printf, 1, 2)));

/* requests.c: what is to be sent, to which `say` adds a line or a part of one */
extern struct output {
    char *bytes;
    size_t length, sent, room;
} output;
void output_wipe(void);
void say(const char *format, ...) __attribute__((format(printf, 1, 2)));
/* lets a name of more than one component through, which has slashes between them; NULL, or why not */
const char *also_add(const char *text);
/* the code in words: `locked` where somebody else has the database locked */
char *message_of(long error);
/* answers a line; whether it is a request */
int answer(char *line);
/* what is done with each entry that the database takes up; an error ends it */
long take_entry(const char *name);
/* notes a key under the default salt, the first of its type */
void hold_key(struct held *held, int type, const void *bytes, size_t size);
/* adds a component to a name, which is "" at first; whether a line can still have it */
int name_add(char name[LONGEST_NAME + 1], const char *component, size_t size);
/* the size of the name's next component, 0 at its end, and its bytes, with a 0 behind them */
size_t name_next(const char **rest, char *component);

/* files.c: since they were 0, whether somebody else wrote, other files stand at the paths, or a sync failed, and why */
extern int files_are_changed, files_are_others, files_unsynced;
void files_watch(const char *data, const char *counter, const char *log);
void files_look(void);
/* right after an own write, when nobody else can have written */
void files_written(void);
long files_reserve(void);     /* so that there is room for an own write */
char *files_unwritable(void); /* one that is there and can't be written, and why; NULL where there is none */

/* memory.c: whether there is as much as a request may need */
int memory_is_there(void);

/* mit.c or heimdal.c: the database. Errors are the codes of the project's libraries, 0 for none, or this: */
#define UNREADABLE (-1L) /* one entry can't be read or written, however often that is tried */
extern const uint32_t highest_kvno;
/* those of a lock that somebody else has, beside EAGAIN */
extern const long lock_errors[2];
extern krb5_context context;
/* opens it unless it is open; anew where other files stand at its paths. After an error it is to be closed */
long database_open(void);
void database_close(void);
/* takes up the entry of that name or alias, if there is one; by NULL each whose name a line can have. To be written:
   nobody else writes meanwhile */
long database_take(const char *name, int is_to_be_written);
/* what the entry that was taken up has; keys only where they are asked for */
long database_held(int with_keys, struct held *held);
/* writes it with these keys under that version and no others, and all that a change of a password brings */
long database_write(key_pair keys, uint32_t kvno);
