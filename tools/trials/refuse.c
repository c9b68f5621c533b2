/* Loaded before the C library (LD_PRELOAD): refuses the allocation with the number REFUSE_AT, counted from 1, and with REFUSE_LATER
   also all later ones. With REFUSE_COUNT it writes at the end how many there were to the file of that name. */
#define _GNU_SOURCE
#include <dlfcn.h>
#include <errno.h>
#include <stdio.h>
#include <stdlib.h>

static long number, first;
static int begun, refuses_later;

__attribute__((constructor)) static void begin(void)
{
    const char *at = getenv("REFUSE_AT");
    first = at ? atol(at) : 0;
    refuses_later = getenv("REFUSE_LATER") != NULL;
    begun = 1;
}

__attribute__((destructor)) static void end(void)
{
    const char *name = getenv("REFUSE_COUNT");
    begun = 0;
    FILE *file = name ? fopen(name, "w") : NULL;
    if (file) {
        fprintf(file, "%ld", number);
        fclose(file);
    }
}

static int is_refused(void)
{
    if (!begun)
        return 0;
    number++;
    if (first == 0 || number < first || (number > first && !refuses_later))
        return 0;
    errno = ENOMEM;
    return 1;
}

void *malloc(size_t size)
{
    static void *(*real)(size_t);
    if (!real)
        real = (void *(*)(size_t))dlsym(RTLD_NEXT, "malloc");
    return is_refused() ? NULL : real(size);
}

void *realloc(void *old, size_t size)
{
    static void *(*real)(void *, size_t);
    if (!real)
        real = (void *(*)(void *, size_t))dlsym(RTLD_NEXT, "realloc");
    return is_refused() ? NULL : real(old, size);
}
