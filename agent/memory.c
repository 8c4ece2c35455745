/* Want of memory, which the KDCs' libraries don't all bear: some read through a null pointer, some leave an
   entry out. So what a request may need is there before it begins; if that isn't enough, the program ends. */
#include "agent.h"
#include <malloc.h>

#define ENOUGH (8 << 20) /* bytes: more than a request takes, but for the answer to a list */

/* the C library's own, in whose place the libraries find those below */
void *__libc_malloc(size_t size), *__libc_calloc(size_t count, size_t size), *__libc_realloc(void *old, size_t size);
void __libc_free(void *place);

int memory_is_there(void) {
    mallopt(M_MMAP_MAX, 0); /* so that what is freed stays the program's own */
    mallopt(M_TRIM_THRESHOLD, 4 * ENOUGH);
    void *place = __libc_malloc(ENOUGH);
    __libc_free(place);
    return place != NULL;
}

/* the sanitizers have functions of these names of their own */
#ifndef __SANITIZE_ADDRESS__
static void *checked(void *place) {
    if (place == NULL) {
        tell("no memory is left");
        _exit(1);
    }
    return place;
}

void *malloc(size_t size) {
    return checked(__libc_malloc(size));
}

void *calloc(size_t count, size_t size) {
    return checked(__libc_calloc(count, size));
}

void *realloc(void *old, size_t size) {
    void *place = __libc_realloc(old, size);
    return old != NULL && size == 0 ? place : checked(place); /* one of size 0 is freed */
}
#endif
