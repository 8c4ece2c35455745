/*
 * A library for LD_PRELOAD: the program ends by SIGKILL just before the N-th call by which it changes
 * something that others see, where N is DYING_AT of its environment.
 */
#include <dlfcn.h>
#include <fcntl.h>
#include <signal.h>
#include <stdarg.h>
#include <stdlib.h>
#include <sys/socket.h>
#include <sys/syscall.h>
#include <sys/types.h>
#include <unistd.h>

static void step(void)
{
    static long count;
    const char *at = getenv("DYING_AT");

    if (at != NULL && ++count == atol(at))
        kill(getpid(), SIGKILL);
}

/* the next one's function of that name */
#define NEXT(name) ((__typeof__(&name))dlsym(RTLD_NEXT, #name))

ssize_t write(int file, const void *bytes, size_t length)
{
    step();
    return NEXT(write)(file, bytes, length);
}

ssize_t pwrite(int file, const void *bytes, size_t length, off_t place)
{
    step();
    return NEXT(pwrite)(file, bytes, length, place);
}

ssize_t pwrite64(int file, const void *bytes, size_t length, off64_t place)
{
    step();
    return NEXT(pwrite64)(file, bytes, length, place);
}

ssize_t send(int file, const void *bytes, size_t length, int flags)
{
    step();
    return NEXT(send)(file, bytes, length, flags);
}

/* syncs among them, for which an agent has functions of its own */
long syscall(long number, ...)
{
    long words[6];
    va_list values;

    va_start(values, number);
    for (int i = 0; i < 6; i++)
        words[i] = va_arg(values, long);
    va_end(values);
    if (number == SYS_fsync || number == SYS_fdatasync)
        step();
    return NEXT(syscall)(number, words[0], words[1], words[2], words[3], words[4], words[5]);
}

int fallocate(int file, int mode, off_t place, off_t length)
{
    step();
    return NEXT(fallocate)(file, mode, place, length);
}

int ftruncate64(int file, off64_t length)
{
    step();
    return NEXT(ftruncate64)(file, length);
}

int flock(int file, int operation)
{
    step();
    return ((int (*)(int, int))dlsym(RTLD_NEXT, "flock"))(file, operation);
}

/* locks among them */
int fcntl(int file, int command, ...)
{
    va_list values;
    void *value;

    va_start(values, command);
    value = va_arg(values, void *);
    va_end(values);
    if (command != F_GETFD && command != F_SETFD && command != F_GETFL)
        step();
    return ((int (*)(int, int, ...))dlsym(RTLD_NEXT, "fcntl"))(file, command, value);
}

int bind(int file, const struct sockaddr *address, socklen_t length)
{
    step();
    return NEXT(bind)(file, address, length);
}
