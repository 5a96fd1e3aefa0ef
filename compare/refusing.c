/*
 * Refuses one allocation of the program that it is loaded into (LD_PRELOAD): that of the number REFUSED, counted from
 * 1. At the end of the program it writes how many there were into the file COUNTED, where one is named.
 */
#define _GNU_SOURCE
#include <dlfcn.h>
#include <stdio.h>
#include <stdlib.h>

static long seen, refused = -1;

static int is_refused(void)
{
    if (refused < 0)
        refused = getenv("REFUSED") ? atol(getenv("REFUSED")) : 0;
    return ++seen == refused;
}

void *malloc(size_t size)
{
    static void *(*next)(size_t);

    if (!next)
        next = (void *(*)(size_t))dlsym(RTLD_NEXT, "malloc");
    return is_refused() ? NULL : next(size);
}

void *realloc(void *block, size_t size)
{
    static void *(*next)(void *, size_t);

    if (!next)
        next = (void *(*)(void *, size_t))dlsym(RTLD_NEXT, "realloc");
    return is_refused() ? NULL : next(block, size);
}

__attribute__((destructor)) static void tell(void)
{
    FILE *file = getenv("COUNTED") ? fopen(getenv("COUNTED"), "w") : NULL;

    if (file) {
        fprintf(file, "%ld", seen);
        fclose(file);
    }
}
