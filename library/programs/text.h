/* Texts that grow, for the program over the library, and its ends: without memory it ends with
   status 3, as the proved one does. */

#ifndef TEXT_H
#define TEXT_H

#include <keyset.h>

#include <stdio.h>
#include <stdlib.h>
#include <string.h>

/* The statuses that the program ends with. The last is that of sysexits.h. */
enum { ANSWERED = 0, MALFORMED = 1, DEVICE = 2, OUT_OF_MEMORY = 3, USAGE = 64 };

struct text {
    uint8_t *bytes;
    size_t length, room;
};

/* Ends the program with what it says of a fault: before, as "notes: ", and why. */
static inline void end(int status, const char *before, const char *why)
{
    fprintf(stderr, "%s%s\n", before, why);
    exit(status);
}

static inline void end_at_line(const char *before, size_t line, const char *why)
{
    fprintf(stderr, "%sline %zu: %s\n", before, line, why);
    exit(MALFORMED);
}

static inline void reserve(struct text *text, size_t room)
{
    uint8_t *bytes;
    if (text->bytes != NULL && room <= text->room)
        return;
    bytes = realloc(text->bytes, room);
    if (bytes == NULL)
        end(OUT_OF_MEMORY, "", "out of memory");
    text->bytes = bytes;
    text->room = room;
}

static inline void append(struct text *text, const void *bytes, size_t length)
{
    if (text->length + length > text->room)
        reserve(text, 2 * (text->length + length));
    if (length > 0)
        memcpy(text->bytes + text->length, bytes, length);
    text->length += length;
}

/* All of the standard input. */
static inline struct text read_all(void)
{
    struct text all = {NULL, 0, 0};
    reserve(&all, 65536);
    for (;;) {
        size_t got = fread(all.bytes + all.length, 1, all.room - all.length, stdin);
        all.length += got;
        if (ferror(stdin))
            end(DEVICE, "", "input or output fault");
        if (got == 0)
            return all;
        if (all.length == all.room)
            reserve(&all, 2 * all.room);
    }
}

static inline void write_all(const struct text *text)
{
    if (fwrite(text->bytes, 1, text->length, stdout) != text->length || fflush(stdout) != 0)
        end(DEVICE, "", "input or output fault");
}

/* The next line, without its line feed. A text that ends without one has a last line all the
   same. */
static inline int next_line(const struct text *all, size_t *at, const uint8_t **line,
                            size_t *length)
{
    const uint8_t *feed;
    if (*at >= all->length)
        return 0;
    *line = all->bytes + *at;
    feed = memchr(*line, '\n', all->length - *at);
    *length = feed != NULL ? (size_t)(feed - *line) : all->length - *at;
    *at += *length + 1;
    return 1;
}

#endif
