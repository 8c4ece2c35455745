/*
 * Tells on standard error which mode the socket of a program has right after it was made, and then puts a link to the file that
 * LINK names in its place. The program is started with LD_PRELOAD.
 */
#include <dlfcn.h>
#include <stdio.h>
#include <stdlib.h>
#include <sys/socket.h>
#include <sys/stat.h>
#include <sys/un.h>
#include <unistd.h>

int bind(int file, const struct sockaddr *address, socklen_t size)
{
    const char *path = ((const struct sockaddr_un *)(const void *)address)->sun_path, *other = getenv("LINK");
    int (*next)(int, const struct sockaddr *, socklen_t);
    struct stat found;
    int result;

    *(void **)&next = dlsym(RTLD_NEXT, "bind");
    result = next(file, address, size);
    if (result == 0 && address->sa_family == AF_UNIX && stat(path, &found) == 0)
        dprintf(2, "mode %o\n", (unsigned)found.st_mode & 07777);
    if (result == 0 && other != NULL && (unlink(path) < 0 || symlink(other, path) < 0))
        return -1;
    return result;
}
