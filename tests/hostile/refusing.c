/* Refuses one allocation, that of the number REFUSED, for a program that is started with LD_PRELOAD. At
 * its end it says on standard error how many the program asked for. */

#include <errno.h>
#include <stdatomic.h>
#include <stdio.h>
#include <stdlib.h>
#include <sys/syscall.h>
#include <unistd.h>

extern void *__libc_malloc(size_t size);
extern void *__libc_realloc(void *old, size_t size);

static atomic_ulong count;
static unsigned long refused;

static int is_refused(void)
{
    if (atomic_fetch_add(&count, 1) + 1 != refused)
        return 0;
    errno = ENOMEM;
    return 1;
}

void *malloc(size_t size)
{
    return is_refused() ? NULL : __libc_malloc(size);
}

void *realloc(void *old, size_t size)
{
    return is_refused() ? NULL : __libc_realloc(old, size);
}

__attribute__((constructor)) static void start(void)
{
    const char *text = getenv("REFUSED");
    refused = text == NULL ? 0 : strtoul(text, NULL, 10);
}

__attribute__((destructor)) static void end(void)
{
    dprintf(2, "allocations %lu\n", atomic_load(&count));
}

/* How a program with threads ends, past all destructors. */
void _exit(int status)
{
    end();
    for (;;)
        syscall(SYS_exit_group, status);
}
