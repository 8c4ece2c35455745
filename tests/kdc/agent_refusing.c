/*
 * Refuses allocations of an agent that is started with LD_PRELOAD. REFUSING names a file of three numbers of 64
 * bits, which the tests change while the program runs: which allocation from now on is refused, 0 for none;
 * whether all that follow are, too; how many were asked for.
 */
#include <dlfcn.h>
#include <errno.h>
#include <fcntl.h>
#include <stdint.h>
#include <stdlib.h>
#include <sys/mman.h>

static volatile uint64_t *control;

static int is_refused(void)
{
    if (control == NULL)
        return 0;
    control[2]++;
    if (control[0] == 0 || --control[0] > 0)
        return 0;
    if (control[1] != 0)
        control[0] = 1;
    errno = ENOMEM;
    return 1;
}

/* an agent has functions of the usual names itself, which call these */
void *__libc_malloc(size_t size)
{
    static void *(*next)(size_t);

    if (next == NULL)
        *(void **)&next = dlsym(RTLD_NEXT, "__libc_malloc");
    return is_refused() ? NULL : next(size);
}

void *__libc_calloc(size_t count, size_t size)
{
    static void *(*next)(size_t, size_t);

    if (next == NULL)
        *(void **)&next = dlsym(RTLD_NEXT, "__libc_calloc");
    return is_refused() ? NULL : next(count, size);
}

void *__libc_realloc(void *old, size_t size)
{
    static void *(*next)(void *, size_t);

    if (next == NULL)
        *(void **)&next = dlsym(RTLD_NEXT, "__libc_realloc");
    return is_refused() ? NULL : next(old, size);
}

__attribute__((constructor)) static void start(void)
{
    const char *path = getenv("REFUSING");
    int file = path == NULL ? -1 : open(path, O_RDWR);
    void *place = file < 0 ? MAP_FAILED : mmap(NULL, 24, PROT_READ | PROT_WRITE, MAP_SHARED, file, 0);

    if (place != MAP_FAILED)
        control = place;
}
