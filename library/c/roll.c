/* Plays a script line by line, as a tool does over days. It asks about each call with the lines
   that were accepted before it, and prints what the program keyset prints.

       cc -o roll roll.c $(pkg-config --cflags --libs keyset)
       ./roll <../../examples/ksk-roll.script */

#include <keyset.h>

#include <stdio.h>
#include <stdlib.h>
#include <string.h>

struct text {
    uint8_t *bytes;
    size_t length, room;
};

static void give_up(const char *why)
{
    fprintf(stderr, "%s\n", why);
    exit(EXIT_FAILURE);
}

static void reserve(struct text *text, size_t room)
{
    if (text->bytes != NULL && room <= text->room)
        return;
    text->bytes = realloc(text->bytes, room);
    if (text->bytes == NULL)
        give_up("out of memory");
    text->room = room;
}

static void append(struct text *text, const char *bytes, size_t length)
{
    if (text->length + length > text->room)
        reserve(text, 2 * (text->length + length));
    memcpy(text->bytes + text->length, bytes, length);
    text->length += length;
}

/* Reads a line with its line feed, if there is one more. */
static int read_line(FILE *from, struct text *line)
{
    int byte;
    line->length = 0;
    while ((byte = getc(from)) != EOF) {
        char one = (char)byte;
        append(line, &one, 1);
        if (byte == '\n')
            break;
    }
    return line->length > 0;
}

/* Asks with the room that the answer needs. */
static void ask(const struct text *script, struct text *answer)
{
    for (;;) {
        struct keyset_answered outcome =
            keyset_answer(script->bytes, script->length, answer->bytes, answer->room);
        switch (outcome.status) {
        case KEYSET_ANSWERED:
            answer->length = outcome.length;
            return;
        case KEYSET_SHORT:
            reserve(answer, outcome.length);
            break;
        case KEYSET_MALFORMED:
            fprintf(stderr, "line %zu: malformed\n", outcome.line);
            exit(EXIT_FAILURE);
        default:
            give_up("out of memory");
        }
    }
}

/* The lines of an answer, one after another: each ends with a line feed. */
static const char *next_line(const char *line)
{
    return strchr(line, '\n') + 1;
}

static int is_accepted(const char *line)
{
    return strncmp(line, "ok", 2) == 0;
}

int main(void)
{
    struct text script = {0}, answer = {0}, line = {0};
    size_t calls = 0;

    if (keyset_version() != KEYSET_VERSION)
        give_up("the library is of another version");
    reserve(&script, 1024);
    reserve(&answer, 1024);
    while (read_line(stdin, &line)) {
        size_t accepted = script.length;
        append(&script, (const char *)line.bytes, line.length);
        ask(&script, &answer);
        append(&answer, "", 1);
        if (accepted == 0)
            continue; /* the zone's line has no answer of its own */

        const char *reply = (const char *)answer.bytes;
        for (size_t i = 0; i < calls; i++, reply = next_line(reply))
            if (!is_accepted(reply))
                give_up("out of memory"); /* this line was accepted before */
        fwrite(reply, 1, (size_t)(next_line(reply) - reply), stdout);
        if (is_accepted(reply))
            calls++;
        else
            script.length = accepted;
    }

    /* What is published now, and whether the chain of trust held all the time. */
    ask(&script, &answer);
    append(&answer, "", 1);
    const char *end = (const char *)answer.bytes;
    for (size_t i = 0; i < calls; i++)
        end = next_line(end);
    fputs(end, stdout);
    free(line.bytes);
    free(script.bytes);
    free(answer.bytes);
    return EXIT_SUCCESS;
}
