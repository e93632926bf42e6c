/* The reports that are due, by scripts and their notes. docs/REFERENCE.md has the form of both. No
   answer is written if one of them has a fault. */

#include "session.h"
#include "tasks.h"

#include <stdbool.h>

/* A zone: its script and its session, and how far its notes are read. */
struct zone {
    struct text script;
    struct keyset_session session;
    bool in_notes, is_noted, is_asked;
    size_t lines;
};

/* The second that a line `due SECONDS` asks about. */
static bool is_question(const uint8_t *line, size_t length, uint64_t *seconds)
{
    size_t at = 4;
    if (length < 5 || length > 24 || memcmp(line, "due ", 4) != 0)
        return false;
    for (*seconds = 0; at < length; at++) {
        uint64_t digit = (uint64_t)(line[at] - '0');
        if (line[at] < '0' || line[at] > '9' || *seconds > (UINT64_MAX - digit) / 10)
            return false;
        *seconds = *seconds * 10 + digit;
    }
    return true;
}

static void note(struct zone *zone, const uint8_t *line, size_t length)
{
    uint8_t why[KEYSET_TEXT_ROOM];
    uint32_t status = keyset_note(&zone->session, line, length);
    if (status == KEYSET_OUT_OF_MEMORY)
        end(OUT_OF_MEMORY, "notes: ", "out of memory");
    if (status != KEYSET_ANSWERED) {
        size_t end_of = keyset_status_text(status, why, sizeof why).length;
        why[end_of] = '\0';
        end_at_line("notes: ", zone->lines, (const char *)why);
    }
    zone->is_noted = true;
}

static void answer(struct zone *zone, uint64_t seconds, struct text *answers, bool *is_first)
{
    if (!zone->is_noted)
        end_at_line("notes: ", zone->lines, "malformed");
    if (!*is_first)
        append(answers, "\n", 1);
    *is_first = false;
    ASK(answers, "", keyset_due(&zone->session, seconds, out, room));
    zone->is_asked = true;
}

/* Ends the notes of a zone: one line has to be a question. */
static void end_zone(struct zone *zone)
{
    if (!zone->in_notes)
        take_script(&zone->session, &zone->script, "script: ");
    if (!zone->is_noted)
        end_at_line("notes: ", zone->lines > 0 ? zone->lines : 1, "malformed");
    if (!zone->is_asked)
        end_at_line("notes: ", zone->lines + 1, "malformed");
    keyset_close(&zone->session);
    free(zone->script.bytes);
    *zone = (struct zone){0};
}

void answer_questions(void)
{
    struct text all = read_all(), answers = {NULL, 0, 0};
    struct zone zone = {0};
    bool is_first = true;
    size_t at = 0, length;
    const uint8_t *line;
    reserve(&answers, 4096);
    while (next_line(&all, &at, &line, &length)) {
        uint64_t seconds;
        if (length == 0 && zone.in_notes) {
            end_zone(&zone);
        } else if (length == 0) {
            take_script(&zone.session, &zone.script, "script: ");
            zone.in_notes = true;
        } else if (!zone.in_notes) {
            append(&zone.script, line, length);
            append(&zone.script, "\n", 1);
        } else {
            zone.lines++;
            if (is_question(line, length, &seconds))
                answer(&zone, seconds, &answers, &is_first);
            else
                note(&zone, line, length);
        }
    }
    if (zone.in_notes || zone.script.length > 0 || is_first)
        end_zone(&zone);
    write_all(&answers);
}
