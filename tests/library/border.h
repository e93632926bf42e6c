/* What the tests at the border of the library share: requests for memory that can fail, and buffers
   of their own. The linker has malloc, realloc and free of the library come here:
   -Wl,--wrap=malloc,--wrap=realloc,--wrap=free */

#ifndef BORDER_H
#define BORDER_H

#include <keyset.h>

#include <stdbool.h>
#include <stdint.h>
#include <stdio.h>
#include <stdlib.h>
#include <string.h>

#define FILLER 0xA5

void *__real_malloc(size_t size);
void *__real_realloc(void *block, size_t size);
void __real_free(void *block);

/* What the library asks for while it is called: how often it asks, which request has to fail, and
   how many blocks it holds. Of the request that failed: its block and size, whether a block was
   freed after it, and whether the next one asked at once for the same block, and no more. */
static _Thread_local struct {
    bool is_called;
    size_t made, failing, held;
    const void *block;
    size_t size;
    bool is_given_up, is_asked_again;
} requests;

static bool is_to_fail(const void *block, size_t size)
{
    if (!requests.is_called)
        return false;
    requests.made++;
    if (requests.made == requests.failing + 1)
        requests.is_asked_again =
            !requests.is_given_up && block == requests.block && size <= requests.size;
    if (requests.made != requests.failing)
        return false;
    requests.block = block;
    requests.size = size;
    requests.is_given_up = requests.is_asked_again = false;
    return true;
}

void *__wrap_malloc(size_t size)
{
    void *block = is_to_fail(NULL, size) ? NULL : __real_malloc(size);
    requests.held += requests.is_called && block != NULL;
    return block;
}

void *__wrap_realloc(void *block, size_t size)
{
    void *grown = is_to_fail(block, size) ? NULL : __real_realloc(block, size);
    requests.held += requests.is_called && block == NULL && grown != NULL;
    return grown;
}

void __wrap_free(void *block)
{
    requests.held -= requests.is_called && block != NULL;
    requests.is_given_up |= requests.is_called && requests.made == requests.failing;
    __real_free(block);
}

static void expect(bool holds, const char *what, const char *name)
{
    if (!holds) {
        fprintf(stderr, "%s: not as expected: %s\n", name, what);
        exit(EXIT_FAILURE);
    }
}

/* A buffer of this length, of its own, so that a checker of memory sees what is past its end. */
static uint8_t *filled(size_t length)
{
    uint8_t *bytes = malloc(length > 0 ? length : 1);
    expect(bytes != NULL, "memory for a buffer", "a buffer");
    memset(bytes, FILLER, length);
    return bytes;
}

static bool is_filled(const uint8_t *bytes, size_t length)
{
    for (size_t i = 0; i < length; i++)
        if (bytes[i] != FILLER)
            return false;
    return true;
}

/* ---- what the library answers */

/* Each member has its value: only an answer to a whole script has a line. */
static inline bool is_answer(struct keyset_answered outcome, uint32_t status, size_t length)
{
    return outcome.status == status && outcome.length == length && outcome.line == 0;
}

/* The room was too short for an answer of the needed length, and nothing is written. */
static inline void expect_too_short(struct keyset_answered outcome, size_t needed,
                                    const uint8_t *out, size_t room, const char *name)
{
    expect(is_answer(outcome, KEYSET_SHORT, needed), "short", name);
    expect(is_filled(out, room), "nothing is written if it is short", name);
}

#endif
