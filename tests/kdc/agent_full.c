/*
 * The disk is full, for a program that is started with LD_PRELOAD, as long as there is the file that FULL names: nothing is
 * written into a file any more.
 */
#include <dlfcn.h>
#include <errno.h>
#include <stdlib.h>
#include <sys/stat.h>
#include <sys/uio.h>
#include <unistd.h>

static int is_full(int file)
{
    const char *sign = getenv("FULL");
    struct stat found;

    if (sign == NULL || access(sign, F_OK) < 0 || fstat(file, &found) < 0 || !S_ISREG(found.st_mode))
        return 0;
    errno = ENOSPC;
    return 1;
}

ssize_t write(int file, const void *bytes, size_t size)
{
    ssize_t (*next)(int, const void *, size_t);

    *(void **)&next = dlsym(RTLD_NEXT, "write");
    return is_full(file) ? -1 : next(file, bytes, size);
}

ssize_t pwrite(int file, const void *bytes, size_t size, off_t place)
{
    ssize_t (*next)(int, const void *, size_t, off_t);

    *(void **)&next = dlsym(RTLD_NEXT, "pwrite");
    return is_full(file) ? -1 : next(file, bytes, size, place);
}

ssize_t pwrite64(int file, const void *bytes, size_t size, off64_t place)
{
    ssize_t (*next)(int, const void *, size_t, off64_t);

    *(void **)&next = dlsym(RTLD_NEXT, "pwrite64");
    return is_full(file) ? -1 : next(file, bytes, size, place);
}

ssize_t writev(int file, const struct iovec *parts, int count)
{
    ssize_t (*next)(int, const struct iovec *, int);

    *(void **)&next = dlsym(RTLD_NEXT, "writev");
    return is_full(file) ? -1 : next(file, parts, count);
}
