/* What a policy says to do next, by a script and its notes. docs/POLICY.md has the form of all. */

#include "tasks.h"
#include "text.h"

#include <stdbool.h>

/* A part of the text, which an empty line ends. */
struct part {
    const uint8_t *bytes;
    size_t length, lines;
};

/* The part that begins here, and where the next one does. */
static struct part next_part(const struct text *all, size_t *at)
{
    struct part part = {all->bytes + *at, 0, 0};
    size_t begin = *at, length;
    const uint8_t *line;
    while (next_line(all, at, &line, &length)) {
        if (length == 0)
            return part;
        part.length = (*at < all->length ? *at : all->length) - begin;
        part.lines++;
    }
    return part;
}

/* Where the last line of a part begins. */
static size_t last_line(const struct part *part)
{
    size_t at = part->length;
    while (at > 0 && (part->bytes[at - 1] != '\n' || at == part->length))
        at--;
    return at;
}

/* The second that the last line of the notes asks about, if it asks. */
static bool is_asked(const struct part *notes_and_next, uint64_t *seconds)
{
    size_t at = last_line(notes_and_next), end = notes_and_next->length, digits;
    if (end > at && notes_and_next->bytes[end - 1] == '\n')
        end--;
    digits = end - at - 5;
    if (at == 0 || end < at + 6 || digits > 20
        || memcmp(notes_and_next->bytes + at, "next ", 5) != 0)
        return false;
    for (*seconds = 0, at += 5; at < end; at++) {
        uint64_t digit = (uint64_t)(notes_and_next->bytes[at] - '0');
        if (digit > 9 || *seconds > (UINT64_MAX - digit) / 10)
            return false;
        *seconds = *seconds * 10 + digit;
    }
    return true;
}

static struct keyset_answered ask(const struct part *policy, const struct part *script,
                                  const struct part *notes, uint64_t seconds, struct text *line)
{
    struct keyset_answered outcome;
    while ((outcome = keyset_next(policy->bytes, policy->length, script->bytes, script->length,
                                  notes->bytes, notes->length, seconds, line->bytes,
                                  line->room - 1))
               .status == KEYSET_SHORT)
        reserve(line, outcome.length + 1);
    line->length = outcome.length;
    line->bytes[outcome.length] = outcome.status == KEYSET_ANSWERED ? '\n' : '\0';
    return outcome;
}

void say_next(void)
{
    struct text all = read_all(), line = {NULL, 0, 0};
    size_t at = 0;
    struct part policy = next_part(&all, &at), script = next_part(&all, &at);
    struct part notes_and_next = next_part(&all, &at), more = next_part(&all, &at);
    struct part notes = notes_and_next;
    uint64_t seconds = 0;
    bool has_asked = more.length == 0 && at >= all.length && is_asked(&notes_and_next, &seconds);
    struct keyset_answered outcome;
    if (has_asked)
        notes.length = last_line(&notes_and_next);
    reserve(&line, 4096);
    outcome = ask(&policy, &script, &notes, seconds, &line);
    if (outcome.status == KEYSET_OUT_OF_MEMORY)
        end(OUT_OF_MEMORY, "", "out of memory");
    if (outcome.status == KEYSET_NOT_SAID)
        end(MALFORMED, "", (const char *)line.bytes);
    if (!has_asked)
        end_at_line("notes: ", notes_and_next.lines + 1, "malformed");
    line.length++;
    write_all(&line);
}
