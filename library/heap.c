/* The heap of the library on ARM, over that of the C library. The toolchain has it for x86-64 only.

   No proof speaks of these lines: they are trusted, as the C library is. A size of 0 is a request
   for some place, whose bytes nobody uses. */

#include <stddef.h>
#include <stdint.h>
#include <stdlib.h>

struct place {
    uint64_t is_there;
    void *at;
};

static struct place place_of(void *at)
{
    static char none;
    return (struct place){at != NULL, at != NULL ? at : &none};
}

/* malloc aligns for every type of C, and the library asks for no more. */
struct place rattle_alloc(uint64_t size, uint64_t align)
{
    return place_of(malloc(size > 0 ? size : align));
}

struct place rattle_realloc(void *old, uint64_t old_size, uint64_t size, uint64_t align)
{
    (void)old_size;
    return place_of(realloc(old, size > 0 ? size : align));
}

void rattle_dealloc(void *at)
{
    free(at);
}
