/* Whether somebody else wrote the database, by its files. `data` has the entries. `counter` is changed by each writer
   before the data, and differently each time: MIT's principal.ok, whose time each write of a db2 database moves on by
   at least a second, or Heimdal's log, which grows. Of MIT's log only that it is another file counts. */
#include "agent.h"

/* each as it was seen last; zeros where it wasn't there */
static struct file {
    char path[PATH_MAX];
    struct stat seen;
} data, counter, log_file;

int files_are_changed, files_are_others, files_unsynced;
static int is_own; /* whether the next change of the data is our own */

/* looks at it anew; whether it has changed */
static int has_changed(struct file *file) {
    struct stat old = file->seen, *seen = &file->seen;
    if (stat(file->path, seen) < 0)
        memset(seen, 0, sizeof *seen);
    int is_other = old.st_dev != seen->st_dev || old.st_ino != seen->st_ino;
    files_are_others |= is_other;
    return is_other || old.st_size != seen->st_size || memcmp(&old.st_mtim, &seen->st_mtim, sizeof old.st_mtim) != 0;
}

void files_look(void) {
    /* data seen before the counter are our own as long as that is: who writes after us changes that first */
    int is_data_changed = has_changed(&data), is_counter_changed = has_changed(&counter);
    files_are_changed |= is_counter_changed || (is_data_changed && !is_own);
    has_changed(&log_file);
    is_own = 0;
}

void files_written(void) {
    has_changed(&counter);
    is_own = 1;
}

void files_watch(const char *new_data, const char *new_counter, const char *new_log) {
    snprintf(data.path, sizeof data.path, "%s", new_data);
    snprintf(counter.path, sizeof counter.path, "%s", new_counter);
    snprintf(log_file.path, sizeof log_file.path, "%s", new_log);
    files_look();
    files_are_others = 0; /* the database that was just opened is the one that stands there */
}

char *files_unwritable(void) {
    static char text[PATH_MAX + LONGEST_TEXT];
    const char *path = access(data.path, W_OK) == 0 || errno == ENOENT ? counter.path : data.path;
    if (access(path, W_OK) == 0 || errno == ENOENT)
        return NULL;
    const char *setting = errno == EROFS ? "; set ReadWritePaths of the unit" : "";
    snprintf(text, sizeof text, "%s: %s%s", strerror(errno), path, setting);
    return text;
}

long files_reserve(void) {
    struct stat now;
    int file = open(data.path, O_RDWR | O_CLOEXEC);
    /* the libraries destroy a database whose disk gets full amid a write; not each file system can reserve */
    int is_there = file >= 0 && fstat(file, &now) == 0;
    int is_refused = is_there && fallocate(file, FALLOC_FL_KEEP_SIZE, now.st_size, 1 << 20) < 0 && errno != EOPNOTSUPP;
    long error = is_refused ? errno : 0;
    close(file);
    return error;
}

/* in place of the C library's, since the projects' don't say that one failed; a file as /dev/null has none */
static int synced(long found) {
    files_unsynced = found < 0 && errno != EINVAL ? errno : files_unsynced;
    return (int)found;
}

int fsync(int file) {
    return synced(syscall(SYS_fsync, file));
}

int fdatasync(int file) {
    return synced(syscall(SYS_fdatasync, file));
}
