/* Stands before the C library (LD_PRELOAD). Where `stage_begins` was set by a debugger, the next call for memory first gives
   back what was freed, and then lets the kernel forget the greatest resident size so far. */
#define _GNU_SOURCE
#include <dlfcn.h>
#include <fcntl.h>
#include <malloc.h>
#include <stdlib.h>
#include <unistd.h>

volatile int stage_begins;

static void begin_if_asked(void) {
    if (!stage_begins) return;
    stage_begins = 0;
    malloc_trim(0);
    int file = open("/proc/self/clear_refs", O_WRONLY);
    if (write(file, "5", 1) != 1) abort();
    close(file);
}

void *malloc(size_t size) {
    static void *(*next)(size_t);
    if (!next) next = dlsym(RTLD_NEXT, "malloc");
    begin_if_asked();
    return next(size);
}

void *realloc(void *old, size_t size) {
    static void *(*next)(void *, size_t);
    if (!next) next = dlsym(RTLD_NEXT, "realloc");
    begin_if_asked();
    return next(old, size);
}
