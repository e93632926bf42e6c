/* A session after the lines of a script, and its answers. */

#ifndef SESSION_H
#define SESSION_H

#include "text.h"

/* Makes the calls of a script's lines, also of those that are refused. `before` begins what is said
   of a fault. */
static inline void take_script(struct keyset_session *session, const struct text *script,
                               const char *before)
{
    size_t at = 0, number = 0, length = 0;
    const uint8_t *line = NULL;
    do {
        uint32_t status;
        int is_there = next_line(script, &at, &line, &length);
        number++;
        if (number == 1)
            status = keyset_open(line, is_there ? length : 0, session);
        else if (!is_there)
            return;
        else
            status = keyset_call(session, line, length, NULL, 0).status;
        if (status == KEYSET_MALFORMED)
            end_at_line(before, number, "malformed");
        if (status != KEYSET_ANSWERED && status != KEYSET_SHORT)
            end(OUT_OF_MEMORY, before, "out of memory");
    } while (number > 0);
}

/* Appends the answer to a question, with the room that it needs. */
#define ASK(answer, before, question)                                                             \
    do {                                                                                          \
        struct keyset_answered outcome;                                                           \
        uint8_t *out = (answer)->bytes + (answer)->length;                                        \
        size_t room = (answer)->room - (answer)->length;                                          \
        outcome = question;                                                                       \
        if (outcome.status == KEYSET_ANSWERED) {                                                  \
            (answer)->length += outcome.length;                                                   \
            break;                                                                                \
        }                                                                                         \
        if (outcome.status != KEYSET_SHORT)                                                       \
            end(OUT_OF_MEMORY, before, "out of memory");                                          \
        reserve(answer, 2 * ((answer)->length + outcome.length));                                 \
    } while (1)

#endif
