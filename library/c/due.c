/* Says which reports are due by notes, as `keyset notes` does: it reads a script, an empty line,
   and the notes, with lines `due SECOND` among them. A session takes each line as it comes.

       cc -o due due.c $(pkg-config --cflags --libs keyset)
       ./due <../../examples/lowered-ttl.notes */

#include <keyset.h>

#include <stdio.h>
#include <stdlib.h>
#include <string.h>

#define ROOM 1024

static struct keyset_session session;

static void give_up(const char *line, uint32_t status)
{
    uint8_t text[KEYSET_TEXT_ROOM];
    struct keyset_answered outcome = keyset_status_text(status, text, sizeof text);
    fprintf(stderr, "%s: %.*s\n", line, (int)outcome.length, (const char *)text);
    exit(EXIT_FAILURE);
}

static void expect_answered(const char *line, uint32_t status)
{
    if (status != KEYSET_ANSWERED)
        give_up(line, status);
}

/* The next line of a script: the first one opens its session. */
static void take_call(const char *line)
{
    uint8_t out[ROOM];
    const uint8_t *bytes = (const uint8_t *)line;
    if (!session.is_open)
        expect_answered(line, keyset_open(bytes, strlen(line), &session));
    else
        expect_answered(line, keyset_call(&session, bytes, strlen(line), out, ROOM).status);
}

/* The next line of its notes, or a question. */
static void take_note(const char *line, bool *has_answered)
{
    uint8_t out[ROOM];
    if (strncmp(line, "due ", 4) != 0) {
        expect_answered(line, keyset_note(&session, (const uint8_t *)line, strlen(line)));
        return;
    }
    struct keyset_answered outcome = keyset_due(&session, strtoull(line + 4, NULL, 10), out, ROOM);
    expect_answered(line, outcome.status);
    if (*has_answered)
        putchar('\n');
    *has_answered = true;
    fwrite(out, 1, outcome.length, stdout);
}

int main(void)
{
    char line[ROOM];
    bool is_in_notes = false, has_answered = false;

    while (fgets(line, sizeof line, stdin) != NULL) {
        size_t length = strcspn(line, "\n");
        if (line[length] == '\0' && !feof(stdin))
            give_up("a longer line than expected", KEYSET_MALFORMED);
        line[length] = '\0';
        if (*line == '\0') {
            if (is_in_notes)
                keyset_close(&session);
            is_in_notes = !is_in_notes;
        } else if (is_in_notes) {
            take_note(line, &has_answered);
        } else {
            take_call(line);
        }
    }
    keyset_close(&session);
    return EXIT_SUCCESS;
}
