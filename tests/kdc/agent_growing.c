/*
 * There is no room for a longer file DATA, for a program that is started with LD_PRELOAD, as long as there is the file that GROWING
 * names: what is in the file already can be written over. Room can't be reserved either; where GROWING has a byte, the file
 * system doesn't know of reserving.
 */
#include <dlfcn.h>
#include <errno.h>
#include <fcntl.h>
#include <stdlib.h>
#include <sys/stat.h>
#include <unistd.h>

/* whether that file may not have so many bytes */
static int is_full(int file, off_t end)
{
    const char *sign = getenv("GROWING"), *path = getenv("DATA");
    struct stat data, found;

    if (sign == NULL || path == NULL || access(sign, F_OK) < 0 || stat(path, &data) < 0 || fstat(file, &found) < 0)
        return 0;
    if (data.st_dev != found.st_dev || data.st_ino != found.st_ino || end <= found.st_size)
        return 0;
    errno = ENOSPC;
    return 1;
}

ssize_t write(int file, const void *bytes, size_t size)
{
    ssize_t (*next)(int, const void *, size_t);

    *(void **)&next = dlsym(RTLD_NEXT, "write");
    return is_full(file, lseek(file, 0, SEEK_CUR) + (off_t)size) ? -1 : next(file, bytes, size);
}

ssize_t pwrite(int file, const void *bytes, size_t size, off_t place)
{
    ssize_t (*next)(int, const void *, size_t, off_t);

    *(void **)&next = dlsym(RTLD_NEXT, "pwrite");
    return is_full(file, place + (off_t)size) ? -1 : next(file, bytes, size, place);
}

ssize_t pwrite64(int file, const void *bytes, size_t size, off64_t place)
{
    ssize_t (*next)(int, const void *, size_t, off64_t);

    *(void **)&next = dlsym(RTLD_NEXT, "pwrite64");
    return is_full(file, place + (off_t)size) ? -1 : next(file, bytes, size, place);
}

int fallocate(int file, int mode, off_t place, off_t size)
{
    int (*next)(int, int, off_t, off_t);
    struct stat sign;

    *(void **)&next = dlsym(RTLD_NEXT, "fallocate");
    if (!is_full(file, place + size))
        return next(file, mode, place, size);
    if (stat(getenv("GROWING"), &sign) == 0 && sign.st_size > 0)
        errno = EOPNOTSUPP;
    return -1;
}
