/* Requests and their answers. */
#include "agent.h"

#define DIGITS "0123456789abcdef"
#define MOST_ALSO 16

/* the request that is answered */
static struct {
    enum { LIST, LIST_KEYS, GET, PUT, WRITTEN } verb; /* the last is a PUT whose entry was written */
    const char *name; /* as the line has it, NULL for the lists */
    uint32_t kvno;
    key_pair keys;
    size_t count; /* of entries that were taken up for it */
} request;

/* what is to be sent; at first it has room for all answers but the lists */
static char small[4 * LONGEST_LINE];
struct output output = {small, 0, 0, sizeof small};

void output_wipe(void) {
    explicit_bzero(output.bytes, output.length);
    if (output.bytes != small)
        free(output.bytes);
    output = (struct output){small, 0, 0, sizeof small};
}

void say(const char *format, ...) {
    if (output.room - output.length < LONGEST_LINE) {
        /* realloc wouldn't wipe what it gives back */
        struct output larger = {malloc(2 * output.room), output.length, 0, 2 * output.room};
        memcpy(larger.bytes, output.bytes, output.length);
        output_wipe();
        output = larger;
    }
    va_list values;
    va_start(values, format);
    output.length += (size_t)vsnprintf(output.bytes + output.length, LONGEST_LINE, format, values);
    va_end(values);
}

/* reads bytes, whose digits are there */
static void read_bytes(const char *text, void *bytes, size_t size) {
    unsigned char *at = bytes;
    for (; size > 0; size--, text += 2)
        *at++ = (unsigned char)((strchr(DIGITS, text[0]) - DIGITS) * 16 + (strchr(DIGITS, text[1]) - DIGITS));
}

int name_add(char name[LONGEST_NAME + 1], const char *component, size_t size) {
    size_t length = strlen(name);
    if (length > 0)
        name[length++] = '/';
    if (size == 0 || size > LONGEST_NAME || length + 2 * size > LONGEST_NAME)
        return 0;
    for (size_t i = 0; i < size; i++)
        sprintf(name + length + 2 * i, "%02x", (unsigned char)component[i]);
    return 1;
}

size_t name_next(const char **rest, char *component) {
    size_t size = strcspn(*rest, "/") / 2;
    read_bytes(*rest, component, size);
    component[size] = '\0';
    *rest += 2 * size + ((*rest)[2 * size] == '/');
    return size;
}

void hold_key(struct held *held, int type, const void *bytes, size_t size) {
    for (int i = 0; i < 2; i++)
        if (type == key_types[i] && size == key_sizes[i] && held->has[i]++ == 0)
            memcpy(held->keys[i], bytes, size);
}

/* first components of names that are never written or told the keys of: the KDC or its servers live by them */
static const char *reserved[] = {"krbtgt", "kadmin", "K", "WELLKNOWN", "kiprop", "iprop", "hprop", "changepw", "default"};
/* names of more than one component that may be written all the same */
static char also[MOST_ALSO][LONGEST_NAME + 1];
static size_t also_count;
static int is_doubtful; /* whether a write has failed: replicas, or the disk, may lack what the database has */

/* why a name is never written, in one word; NULL where it is */
static const char *refusal_of(const char *name) {
    char first[LONGEST_NAME / 2 + 1];
    const char *rest = name;
    size_t size = name_next(&rest, first);
    for (size_t i = 0; i < sizeof reserved / sizeof *reserved; i++)
        if (strlen(reserved[i]) == size && memcmp(reserved[i], first, size) == 0)
            return "reserved";
    for (size_t i = 0; i < also_count; i++)
        if (strcmp(name, also[i]) == 0)
            return NULL;
    return *rest == '\0' ? NULL : "components";
}

const char *also_add(const char *text) {
    char *name = also[also_count];
    if (also_count == MOST_ALSO)
        return "too many names";
    if (strpbrk(text, "@\\") != NULL)
        return "a name has no realm here";
    do {
        size_t length = strcspn(text, "/");
        if (!name_add(name, text, length))
            return "no name";
        text += length;
    } while (*text++ == '/');
    return refusal_of(also[also_count++]) != NULL ? "it is never written" : NULL;
}

static int is_name(const char *text) {
    size_t length = strlen(text) > LONGEST_NAME ? 0 : strspn(text, DIGITS);
    for (; length > 0 && length % 2 == 0 && text[length] == '/'; length = strspn(text, DIGITS))
        text += length + 1;
    return length > 0 && length % 2 == 0 && text[length] == '\0';
}

/* a version from 1 on, written in one way only */
static int read_kvno(const char *text) {
    size_t length = strspn(text, "0123456789");
    uint64_t number = length > 10 ? 0 : strtoull(text, NULL, 10);
    request.kvno = (uint32_t)number;
    return text[0] != '0' && text[length] == '\0' && number > 0 && number <= UINT32_MAX;
}

static int read_key(const char *text, int which) {
    if (strlen(text) != 2 * key_sizes[which] || strspn(text, DIGITS) != strlen(text))
        return 0;
    read_bytes(text, request.keys[which], key_sizes[which]);
    return 1;
}

/* reads a request, of which it keeps the name where it is; whether it is one */
static int read_request(char *line) {
    char *words[5] = {"", "", "", "", ""};
    int length = 0;
    /* between two spaces there is an empty word, which stands in no request */
    while (line != NULL && length < 5)
        words[length++] = strsep(&line, " ");
    if (line != NULL)
        return 0;
    if (strcmp(words[0], "list") == 0) {
        request.verb = length == 1 ? LIST : LIST_KEYS;
        return length == 1 || (length == 2 && strcmp(words[1], "keys") == 0);
    }
    request.verb = length == 2 ? GET : PUT;
    request.name = words[1];
    if (strcmp(words[0], length == 2 ? "get" : "put") != 0 || !is_name(words[1]))
        return 0;
    return length == 2 || (read_kvno(words[2]) && read_key(words[3], 0) && read_key(words[4], 1));
}

static void say_keys(const char *name, const struct held *held) {
    say("has %s %" PRIu32, name, held->kvno);
    for (int which = 0; which < 2; which++)
        for (size_t i = 0; i < key_sizes[which]; i++)
            say(i == 0 ? " %02x" : "%02x", held->keys[which][i]);
    say("\n");
}

static long write_keys(uint32_t kvno) {
    /* what is seen after the write is taken for our own */
    files_look();
    files_unsynced = 0;
    long error = files_reserve() ?: database_write(request.keys, kvno);
    files_written();
    request.kvno = kvno;
    request.verb = error == 0 ? WRITTEN : PUT;
    is_doubtful |= error != 0 && error != UNREADABLE;
    return error;
}

/* writes the version that was asked for, if the database's is lower, or else the one after the database's;
   nothing where there are just these keys under just this version already */
static long put(const char *reason, const struct held *held) {
    int is_done = held->kvno == request.kvno && held->has[0] && held->has[1] && !is_doubtful &&
                  memcmp(held->keys, request.keys, sizeof held->keys) == 0;
    uint64_t kvno = is_done || held->kvno < request.kvno ? request.kvno : (uint64_t)held->kvno + 1;
    reason = reason ?: kvno > highest_kvno ? "version" : NULL;
    long error = reason != NULL || is_done ? 0 : write_keys((uint32_t)kvno);
    if (reason != NULL || error == UNREADABLE)
        say("refused %s %s\n", request.name, reason ?: "keys");
    else
        say("put %s %" PRIu64 "\n", request.name, kvno);
    return error == UNREADABLE ? 0 : error;
}

long take_entry(const char *name) {
    if (request.name != NULL && strcmp(name, request.name) != 0)
        return 0; /* an alias is no principal of its own */
    const char *reason = refusal_of(name);
    struct held held;
    long error = database_held(reason == NULL && request.verb != LIST, &held); /* no keys that nobody may have */
    if (reason == NULL && (held.is_locked_down || error == UNREADABLE))
        reason = held.is_locked_down ? "lockdown" : "keys";
    error = error == UNREADABLE ? 0 : error;
    if (request.verb == LIST)
        say("has %s %" PRIu32 "\n", name, held.kvno);
    else if (request.verb == PUT)
        error = error ?: put(reason, &held);
    else if (request.verb == WRITTEN)
        error = error ?: reason != NULL || held.kvno < request.kvno ? EIO : 0;
    else if (reason == NULL && held.kvno > 0 && held.has[0] && held.has[1])
        say_keys(name, &held);
    else
        say("other %s %s\n", name, reason ?: "keys");
    explicit_bzero(&held, sizeof held);
    request.count++;
    return error;
}

char *message_of(long error) {
    static char text[LONGEST_TEXT];
    int is_locked = error == EAGAIN || error == lock_errors[0] || error == lock_errors[1];
    const char *message = krb5_get_error_message(context, (krb5_error_code)error);
    snprintf(text, sizeof text, "%s", error == ENOMEM ? "no memory" : is_locked ? "locked" : message);
    krb5_free_error_message(context, message);
    return text;
}

/* says that it failed, in place of what was said before; in words set apart by one space */
static void say_failed(char *text) {
    text[strnlen(text, LONGEST_TEXT - 1)] = '\0';
    for (char *at = text; *at != '\0'; at++)
        if (*at < ' ' || *at > '~')
            *at = ' ';
    output_wipe();
    say("failed %s", request.name == NULL ? "-" : request.name);
    for (char *word = strtok(text, " "); word != NULL; word = strtok(NULL, " "))
        say(" %s", word);
    say("\n");
}

static void do_request(void) {
    long error = memory_is_there() ? database_open() : ENOMEM;
    error = error ?: database_take(request.name, request.verb == PUT);
    files_look();
    /* MIT's library doesn't say that the disk was full, or failed */
    if (error == 0 && request.verb == WRITTEN) {
        request.count = 0;
        is_doubtful |= files_unsynced != 0;
        error = files_unsynced ?: database_take(request.name, 0) ?: request.count == 0 ? EIO : 0;
    }
    if (error != 0) {
        char *text = request.verb >= PUT && error != ENOMEM ? files_unwritable() : NULL;
        say_failed(text ?: message_of(error));
        database_close();
    } else if (request.name == NULL) {
        say("end %zu\n", request.count);
    } else if (request.count == 0) {
        say("none %s\n", request.name);
    }
}

int answer(char *line) {
    int is_request = read_request(line);
    const char *reason = is_request && request.verb == PUT ? refusal_of(request.name) : NULL;
    /* the database isn't needed, nor looked at, for what is never written */
    if (reason != NULL)
        say("refused %s %s\n", request.name, reason);
    else if (is_request)
        do_request();
    explicit_bzero(&request, sizeof request);
    return is_request;
}
