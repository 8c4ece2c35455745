/*
 * No sync of the file DATA succeeds, for a program that is started with LD_PRELOAD, as long as there is the file that UNSYNCED
 * names: neither by the C library's functions nor by its `syscall`, of which others make such functions.
 */
#include <dlfcn.h>
#include <errno.h>
#include <stdarg.h>
#include <stdlib.h>
#include <sys/stat.h>
#include <sys/syscall.h>
#include <unistd.h>

static int is_refused(int file)
{
    const char *sign = getenv("UNSYNCED"), *path = getenv("DATA");
    struct stat data, found;

    if (sign == NULL || path == NULL || access(sign, F_OK) < 0 || stat(path, &data) < 0 || fstat(file, &found) < 0)
        return 0;
    if (data.st_dev != found.st_dev || data.st_ino != found.st_ino)
        return 0;
    errno = EIO;
    return 1;
}

int fsync(int file)
{
    int (*next)(int);

    *(void **)&next = dlsym(RTLD_NEXT, "fsync");
    return is_refused(file) ? -1 : next(file);
}

int fdatasync(int file)
{
    int (*next)(int);

    *(void **)&next = dlsym(RTLD_NEXT, "fdatasync");
    return is_refused(file) ? -1 : next(file);
}

long syscall(long number, ...)
{
    long (*next)(long, ...), words[6];
    va_list values;

    *(void **)&next = dlsym(RTLD_NEXT, "syscall");
    va_start(values, number);
    for (int i = 0; i < 6; i++)
        words[i] = va_arg(values, long);
    va_end(values);
    if ((number == SYS_fsync || number == SYS_fdatasync) && is_refused((int)words[0]))
        return -1;
    return next(number, words[0], words[1], words[2], words[3], words[4], words[5]);
}
