/* Linked with --wrap=malloc, --wrap=realloc and --wrap=free: of the calls that the library makes, counted from 1, those numbered
   from REFUSED_FROM to REFUSED_TO get no memory. At the end the file that REFUSED_NOTE names gets the count of all calls, and how
   many pieces of memory weren't freed. */
#include <stddef.h>
#include <stdio.h>
#include <stdlib.h>

#include "../shims/refused.h"

void *__real_malloc(size_t);
void *__real_realloc(void *, size_t);
void *__wrap_malloc(size_t);
void *__wrap_realloc(void *, size_t);

void __real_free(void *);
void __wrap_free(void *);

static long held;

void *__wrap_malloc(size_t size) {
    void *new = is_refused() ? NULL : __real_malloc(size);
    held += new != NULL;
    return new;
}

void *__wrap_realloc(void *old, size_t size) {
    void *new = is_refused() ? NULL : __real_realloc(old, size);
    held += old == NULL && new != NULL;
    return new;
}

void __wrap_free(void *old) {
    held -= old != NULL;
    __real_free(old);
}

__attribute__((destructor)) static void note(void) {
    const char *path = getenv("REFUSED_NOTE");
    FILE *file = path ? fopen(path, "w") : NULL;
    if (file) {
        fprintf(file, "%lu %ld\n", calls, held);
        fclose(file);
    }
}
