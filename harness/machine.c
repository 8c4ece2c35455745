/* The machine as a script wants it, for a program that is started with LD_PRELOAD. Each of these holds where the
   environment has it:

   SLOW     a sync of a file takes so many milliseconds longer
   FOLDERS  of the syncs of folders the one of this number, from 1, fails
   SYNCED   this file gets a line for each sync of a folder, with its path
   CLOCK    the clock of the day stands still at the second that this file has in decimal digits
   TICK     it takes so many milliseconds to look at that clock
   HELD     while this file is there, the first to look at that clock puts .held behind the file's name, and waits until
            the file isn't there under that name either
   LOCK     the same for the first to lock a file
   MODE     the same for the first to set the mode of a path
   SEEK     the same for the first to go to a place of a file
   ACCEPT   the same for the first to accept
   FAILS    a call, a number from 1 and a fault of Linux, in decimal digits with a space before each: the call of this
            number fails so. Calls are those below, `sync` that of a file that is no folder
   DRIPS    bytes come one by one over TCP, and each read of one, or of a datagram, takes so many milliseconds
   ACCEPTS  the first accepts fail, each with the next one of these faults of Linux, in decimal digits with a space
            between them
   ACCEPTED this file gets a byte for each accept */

#define _GNU_SOURCE
#include <errno.h>
#include <fcntl.h>
#include <stdatomic.h>
#include <stdio.h>
#include <stdlib.h>
#include <string.h>
#include <sys/epoll.h>
#include <sys/eventfd.h>
#include <sys/socket.h>
#include <sys/stat.h>
#include <sys/syscall.h>
#include <time.h>
#include <unistd.h>

static void wait_for(const char *milliseconds)
{
    long all = milliseconds == NULL ? 0 : strtol(milliseconds, NULL, 10);
    struct timespec time = {all / 1000, all % 1000 * 1000000};
    if (all > 0)
        syscall(SYS_nanosleep, &time, NULL);
}

static void hold(const char *file)
{
    char held[4096];
    if (file == NULL || snprintf(held, sizeof held, "%s.held", file) >= (int)sizeof held)
        return;
    if (syscall(SYS_rename, file, held) == 0)
        while (syscall(SYS_access, held, F_OK) == 0)
            wait_for("1");
}

/* whether this call is the one that is to fail; then errno has its fault */
static int fails(const char *call)
{
    static atomic_int calls;
    const char *words = getenv("FAILS");
    size_t length = strlen(call);
    char *fault;
    if (words == NULL || strncmp(words, call, length) != 0 || words[length] != ' ')
        return 0;
    if (atomic_fetch_add(&calls, 1) + 1 != strtol(words + length, &fault, 10))
        return 0;
    errno = (int)strtol(fault, NULL, 10);
    return 1;
}

static int is_folder(int file)
{
    struct stat found;
    return fstat(file, &found) == 0 && S_ISDIR(found.st_mode);
}

/* whether this sync is one that is to fail; then errno has its fault */
static int is_lost(int file)
{
    static atomic_int folders;
    const char *number = getenv("FOLDERS");
    if (!is_folder(file))
        return fails("sync");
    errno = EIO;
    return number != NULL && atomic_fetch_add(&folders, 1) + 1 == strtol(number, NULL, 10);
}

/* notes which folder is synced */
static void note_folder(int file)
{
    const char *notes = getenv("SYNCED");
    char link[64], path[4096];
    if (notes == NULL || !is_folder(file))
        return;
    snprintf(link, sizeof link, "/proc/self/fd/%d", file);
    ssize_t length = readlink(link, path, sizeof path - 1);
    int opened = open(notes, O_WRONLY | O_APPEND | O_CREAT | O_CLOEXEC, 0600);
    if (length > 0 && opened >= 0) {
        path[length] = '\n';
        syscall(SYS_write, opened, path, length + 1);
    }
    if (opened >= 0)
        syscall(SYS_close, opened);
}

int fsync(int file)
{
    wait_for(getenv("SLOW"));
    note_folder(file);
    return is_lost(file) ? -1 : (int)syscall(SYS_fsync, file);
}

int fdatasync(int file)
{
    wait_for(getenv("SLOW"));
    return is_lost(file) ? -1 : (int)syscall(SYS_fdatasync, file);
}

int flock(int file, int how)
{
    hold(getenv("LOCK"));
    return fails("flock") ? -1 : (int)syscall(SYS_flock, file, how);
}

int rename(const char *from, const char *to)
{
    return fails("rename") ? -1 : (int)syscall(SYS_rename, from, to);
}

int ftruncate(int file, off_t length)
{
    return fails("ftruncate") ? -1 : (int)syscall(SYS_ftruncate, file, length);
}

off_t lseek(int file, off_t place, int from)
{
    hold(getenv("SEEK"));
    return (off_t)syscall(SYS_lseek, file, place, from);
}

ssize_t read(int file, void *bytes, size_t length)
{
    return fails("read") ? -1 : syscall(SYS_read, file, bytes, length);
}

int chmod(const char *path, mode_t mode)
{
    hold(getenv("MODE"));
    return fails("chmod") ? -1 : (int)syscall(SYS_chmod, path, mode);
}

int epoll_create1(int flags)
{
    return fails("epoll_create1") ? -1 : (int)syscall(SYS_epoll_create1, flags);
}

int epoll_wait(int file, struct epoll_event *events, int most, int patience)
{
    return fails("epoll_wait") ? -1 : (int)syscall(SYS_epoll_wait, file, events, most, patience);
}

int eventfd(unsigned int count, int flags)
{
    return fails("eventfd") ? -1 : (int)syscall(SYS_eventfd2, count, flags);
}

int bind(int socket, const struct sockaddr *address, socklen_t length)
{
    return fails("bind") ? -1 : (int)syscall(SYS_bind, socket, address, length);
}

int listen(int listener, int most)
{
    return fails("listen") ? -1 : (int)syscall(SYS_listen, listener, most);
}

/* so many bytes came over the network: they take their time */
static ssize_t dripped(ssize_t came)
{
    if (came > 0)
        wait_for(getenv("DRIPS"));
    return came;
}

ssize_t recv(int file, void *bytes, size_t length, int flags)
{
    struct sockaddr_storage own = {0};
    socklen_t size = sizeof own;
    if (getenv("DRIPS") == NULL || getsockname(file, (struct sockaddr *)&own, &size) != 0 || own.ss_family != AF_INET)
        return syscall(SYS_recvfrom, file, bytes, length, flags, NULL, NULL);
    return dripped(syscall(SYS_recvfrom, file, bytes, length > 0, flags, NULL, NULL));
}

ssize_t recvfrom(int file, void *restrict bytes, size_t length, int flags, struct sockaddr *restrict address,
                 socklen_t *restrict size)
{
    return dripped(syscall(SYS_recvfrom, file, bytes, length, flags, address, size));
}

static void set_by(const char *file, struct timespec *now)
{
    char text[32] = "";
    int opened = file == NULL ? -1 : (int)syscall(SYS_openat, AT_FDCWD, file, O_RDONLY | O_CLOEXEC);
    if (opened < 0)
        return;
    if (syscall(SYS_read, opened, text, sizeof text - 1) > 0) {
        now->tv_sec = strtol(text, NULL, 10);
        now->tv_nsec = 0;
    }
    syscall(SYS_close, opened);
}

int clock_gettime(clockid_t clock, struct timespec *now)
{
    int done = (int)syscall(SYS_clock_gettime, clock, now);
    if (done == 0 && clock == CLOCK_REALTIME) {
        hold(getenv("HELD"));
        wait_for(getenv("TICK"));
        set_by(getenv("CLOCK"), now);
    }
    return done;
}

/* notes an accept */
static void note_accept(void)
{
    const char *notes = getenv("ACCEPTED");
    int opened = notes == NULL ? -1 : open(notes, O_WRONLY | O_APPEND | O_CREAT | O_CLOEXEC, 0600);
    if (opened >= 0) {
        syscall(SYS_write, opened, ".", 1);
        syscall(SYS_close, opened);
    }
}

int accept4(int listener, struct sockaddr *restrict address, socklen_t *restrict length, int flags)
{
    static atomic_int accepts;
    const char *faults = getenv("ACCEPTS");
    long fault = 0;
    hold(getenv("ACCEPT"));
    note_accept();
    if (faults != NULL) {
        int number = atomic_fetch_add(&accepts, 1);
        for (char *rest = (char *)faults; number >= 0; number--)
            fault = strtol(rest, &rest, 10);
    }
    if (fault != 0) {
        errno = (int)fault;
        return -1;
    }
    return (int)syscall(SYS_accept4, listener, address, length, flags);
}
