/* What the library for C calls for memory, over the C library, for processors for which the Rattle kit has no object of it.

   A size of 0 takes as many bytes as the alignment says. The first word of what is returned says whether there is memory. */
#include <stddef.h>
#include <stdlib.h>

struct given {
    size_t is_there;
    void *at;
};

static char nothing;

static struct given given(void *at)
{
    struct given given = {at != NULL, at != NULL ? at : &nothing};

    return given;
}

struct given rattle_alloc(size_t size, size_t alignment);
struct given rattle_realloc(void *at, size_t old_size, size_t size, size_t alignment);
void rattle_dealloc(void *at);

struct given rattle_alloc(size_t size, size_t alignment)
{
    return given(malloc(size != 0 ? size : alignment));
}

struct given rattle_realloc(void *at, size_t old_size, size_t size, size_t alignment)
{
    (void)old_size;
    return given(realloc(at, size != 0 ? size : alignment));
}

void rattle_dealloc(void *at)
{
    free(at);
}
