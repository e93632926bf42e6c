/* The answers to a script. */

#include "tasks.h"
#include "text.h"

void answer_script(void)
{
    struct text script = read_all(), answer = {NULL, 0, 0};
    reserve(&answer, 4096);
    for (;;) {
        struct keyset_answered outcome =
            keyset_answer(script.bytes, script.length, answer.bytes, answer.room);
        switch (outcome.status) {
        case KEYSET_ANSWERED:
            answer.length = outcome.length;
            write_all(&answer);
            return;
        case KEYSET_SHORT:
            reserve(&answer, outcome.length);
            break;
        case KEYSET_MALFORMED:
            end_at_line("", outcome.line, "malformed");
            break;
        default:
            end(OUT_OF_MEMORY, "", "out of memory");
        }
    }
}
