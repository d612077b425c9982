/* Refuses one allocation of a program that is begun with this library in LD_PRELOAD: that of the
   number REFUSED, counted from 1. How many the program has asked for stands in the file COUNTED,
   eight bytes, at each moment, so that a program may be killed. */
#include <fcntl.h>
#include <stdio.h>
#include <stdlib.h>
#include <sys/mman.h>
#include <unistd.h>

extern void *__libc_malloc(size_t);
extern void *__libc_realloc(void *, size_t);

static unsigned long refused, before_begin;
static unsigned long *asked = &before_begin;

__attribute__((constructor)) static void begin(void) {
    const char *number = getenv("REFUSED"), *name = getenv("COUNTED");
    int file = name ? open(name, O_RDWR | O_CREAT | O_TRUNC, 0600) : -1;
    if (file >= 0 && ftruncate(file, sizeof *asked) == 0) {
        void *shared = mmap(NULL, sizeof *asked, PROT_READ | PROT_WRITE, MAP_SHARED, file, 0);
        if (shared != MAP_FAILED)
            asked = shared;
    }
    if (file >= 0)
        close(file);
    *asked = 0;
    refused = number ? strtoul(number, NULL, 10) : 0;
}

static int is_refused(void) {
    return __atomic_add_fetch(asked, 1, __ATOMIC_RELAXED) == refused;
}

void *malloc(size_t size) {
    return is_refused() ? NULL : __libc_malloc(size);
}

void *realloc(void *old, size_t size) {
    return is_refused() ? NULL : __libc_realloc(old, size);
}
