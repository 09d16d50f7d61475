/* Preloaded into a program, it refuses growths: of the calls of malloc, realloc and calloc, counted from 1, those numbered from
   REFUSED_FROM to REFUSED_TO get no memory. At the end the file that REFUSED_NOTE names gets the count of all calls. */
#include <fcntl.h>
#include <stdio.h>
#include <stdlib.h>
#include <unistd.h>

#include "refused.h"

void *__libc_malloc(size_t), *__libc_realloc(void *, size_t), *__libc_calloc(size_t, size_t);

void *malloc(size_t size) { return is_refused() ? NULL : __libc_malloc(size); }
void *realloc(void *old, size_t size) { return is_refused() ? NULL : __libc_realloc(old, size); }
void *calloc(size_t count, size_t size) { return is_refused() ? NULL : __libc_calloc(count, size); }

__attribute__((destructor)) static void note(void) {
    const char *path = getenv("REFUSED_NOTE");
    int file = path ? open(path, O_WRONLY | O_CREAT | O_TRUNC, 0600) : -1;
    if (file >= 0) {
        dprintf(file, "%lu\n", calls);
        close(file);
    }
}
