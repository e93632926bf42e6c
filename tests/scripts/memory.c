/* Lets one request for memory fail in the program that this is loaded into (LD_PRELOAD): the one
   with the number FAILING_REQUEST. At the program's end it writes the number of requests to
   standard error. A call of realloc that asks for no more than the block was asked for gives memory
   back, and is no request. */

#include <stdint.h>
#include <stdio.h>
#include <stdlib.h>

/* The functions of the C library, by the names that it uses itself. */
void *__libc_malloc(size_t size);
void *__libc_realloc(void *block, size_t size);

static size_t made, failing;

static int is_to_fail(void)
{
    return ++made == failing;
}

/* The sizes that blocks were asked for. A block that is given out again takes its old place. */
enum { PLACES = 1 << 20 };
static struct {
    void *block;
    size_t size;
} asked[PLACES];

/* The place of a block, or the free one that it would take. */
static size_t place_of(const void *block)
{
    size_t place = ((uintptr_t)block >> 4) % PLACES;
    while (asked[place].block && asked[place].block != block)
        place = (place + 1) % PLACES;
    return place;
}

static void *noted(void *block, size_t size)
{
    if (block) {
        size_t place = place_of(block);
        asked[place].block = block;
        asked[place].size = size;
    }
    return block;
}

static int gives_back(const void *block, size_t size)
{
    return block && size <= asked[place_of(block)].size;
}

void *malloc(size_t size)
{
    return is_to_fail() ? NULL : noted(__libc_malloc(size), size);
}

void *realloc(void *block, size_t size)
{
    if (!gives_back(block, size) && is_to_fail())
        return NULL;
    return noted(__libc_realloc(block, size), size);
}

/* Requests before this are not the program's. */
__attribute__((constructor)) static void begin(void)
{
    const char *number = getenv("FAILING_REQUEST");
    failing = number ? strtoul(number, NULL, 10) : 0;
    made = 0;
}

__attribute__((destructor)) static void end(void)
{
    fprintf(stderr, "requests: %zu\n", made);
}
