/*
 * Makes each look at the file that SLOW names last 40 ms, before it is looked at, for a program that is started
 * with LD_PRELOAD: so that another has the time to write in between.
 */
#include <dlfcn.h>
#include <stdlib.h>
#include <string.h>
#include <sys/stat.h>
#include <time.h>

int stat(const char *restrict path, struct stat *restrict found)
{
    const struct timespec nap = {0, 40000000};
    const char *slow = getenv("SLOW");
    int (*next)(const char *, struct stat *);

    *(void **)&next = dlsym(RTLD_NEXT, "stat");
    if (slow != NULL && strcmp(path, slow) == 0)
        nanosleep(&nap, NULL);
    return next(path, found);
}
