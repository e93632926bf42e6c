/* Tests notes beside a session at the library's border, over the example of docs/REFERENCE.md:

       session_notes INPUT ANSWERS [STEP]

   The calls and the notes of INPUT are handed in line by line, and each question is answered as the
   program keyset notes has answered it: in a buffer of each length (only every STEP lengths, if a
   checker of memory makes it slow), and after each request for memory has failed in turn. The notes
   are also handed in as early as they are taken, between the calls, and a copy goes on each time.
   Lines that can't be taken are refused by their status, and change nothing. A session that forgoes
   notes takes none, and goes on. */

#define _GNU_SOURCE
#include "border.h"

#include <keyset.h>

#define ROOM 1024
#define MOST 64

static const char *lines[MOST], *answers[MOST];
static size_t calls, all, step = 1;

/* Lines that aren't taken after the notes of the example. */
static const struct {
    const char *line;
    uint32_t status;
} REFUSED[] = {
    {"", KEYSET_MALFORMED},
    {"due 47060", KEYSET_MALFORMED},
    {"before 3600 43200 43200", KEYSET_MALFORMED},
    {"everywhere ds 50000\n", KEYSET_MALFORMED},
    {"published ds 5 4294967296 50000", KEYSET_MALFORMED},
    {"published ds 11 86400 50000", KEYSET_NO_SUCH_CALL},
    {"published dnskey 10 7200 46999", KEYSET_PUBLISHED_EARLY},
    {"everywhere ds 43269", KEYSET_SEEN_EARLY},
    {"everywhere ds 43299", KEYSET_MOMENT_FALLS},
    {"published ds 5 86400 43269", KEYSET_MOMENT_FALLS},
};

static char *text_of(const char *path)
{
    static char rooms[2][1 << 14];
    static size_t used;
    char *text = rooms[used++];
    FILE *file = fopen(path, "r");
    expect(file != NULL, "a file", path);
    text[fread(text, 1, sizeof rooms[0] - 1, file)] = '\0';
    fclose(file);
    return text;
}

/* The lines of the script, and after them those of the notes. */
static void read_input(const char *path)
{
    char *rest = text_of(path);
    for (char *line; (line = strsep(&rest, "\n")) != NULL && all < MOST;)
        if (*line != '\0')
            lines[all++] = line;
        else if (calls == 0)
            calls = all;
    expect(calls > 1 && all > calls && all < MOST, "calls and notes", path);
}

/* The answers, each with its line feed; an empty line stands between two. */
static void read_answers(const char *path)
{
    char *rest = text_of(path);
    for (size_t i = 0; rest != NULL && i < MOST; i++) {
        answers[i] = rest;
        rest = strstr(rest, "\n\n");
        if (rest != NULL) {
            rest[1] = '\0';
            rest += 2;
        }
    }
}

static bool is_question(const char *line)
{
    return strncmp(line, "due ", 4) == 0;
}

static uint32_t note(struct keyset_session *session, const char *line)
{
    requests.is_called = true;
    uint32_t status = keyset_note(session, (const uint8_t *)line, strlen(line));
    requests.is_called = false;
    return status;
}

static struct keyset_answered due(struct keyset_session *session, const char *line, uint8_t *out,
                                  size_t room)
{
    requests.is_called = true;
    struct keyset_answered outcome = keyset_due(session, strtoull(line + 4, NULL, 10), out, room);
    requests.is_called = false;
    return outcome;
}

static void expect_due(struct keyset_session *session, const char *line, const char *wanted)
{
    uint8_t *out = filled(ROOM);
    struct keyset_answered outcome = due(session, line, out, ROOM);
    expect(is_answer(outcome, KEYSET_ANSWERED, strlen(wanted)), "answered", line);
    expect(memcmp(out, wanted, outcome.length) == 0, "the answer", line);
    expect(is_filled(out + outcome.length, ROOM - outcome.length), "what comes after it", line);
    free(out);
}

/* In a buffer that is too short nothing is written. */
static void expect_short(struct keyset_session *session, const char *line, const char *wanted)
{
    size_t needed = strlen(wanted);
    for (size_t room = 0; room < needed; room += step) {
        uint8_t *out = filled(room);
        struct keyset_answered outcome = due(session, line, room > 0 ? out : NULL, room);
        expect_too_short(outcome, needed, out, room, line);
        free(out);
    }
    uint8_t *out = filled(needed);
    expect(due(session, line, out, needed).status == KEYSET_ANSWERED, "exact room", line);
    expect(memcmp(out, wanted, needed) == 0, "the answer in exact room", line);
    free(out);
}

static void call(struct keyset_session *session, const char *line)
{
    uint8_t out[ROOM];
    struct keyset_answered outcome =
        keyset_call(session, (const uint8_t *)line, strlen(line), out, ROOM);
    expect(outcome.status == KEYSET_ANSWERED && out[0] == 'o', "an accepted call", line);
}

static void open_with(struct keyset_session *session, size_t lines_of_it)
{
    const uint8_t *first = (const uint8_t *)lines[0];
    expect(keyset_open(first, strlen(lines[0]), session) == KEYSET_ANSWERED, "opened", lines[0]);
    for (size_t i = 1; i < lines_of_it; i++)
        call(session, lines[i]);
}

/* Each request of a question fails in turn: the session stays open. Gives how many failed. */
static size_t fail_due(struct keyset_session *session, const char *line, const char *wanted)
{
    uint8_t *out = filled(ROOM);
    for (requests.failing = 1;; requests.failing++) {
        requests.made = 0;
        struct keyset_answered outcome = due(session, line, out, ROOM);
        if (requests.made < requests.failing) {
            expect(outcome.status == KEYSET_ANSWERED, "answered in the end", line);
            break;
        }
        expect(is_answer(outcome, KEYSET_OUT_OF_MEMORY, 0), "out of memory", line);
        expect(is_filled(out, ROOM), "nothing is written", line);
    }
    size_t failed = requests.failing - 1;
    requests.failing = 0;
    expect_due(session, line, wanted);
    free(out);
    return failed;
}

/* The same of a line of notes, which is taken in the end. */
static size_t fail_note(struct keyset_session *session, const char *line)
{
    for (requests.failing = 1;; requests.failing++) {
        requests.made = 0;
        uint32_t status = note(session, line);
        if (status == KEYSET_ANSWERED)
            break;
        expect(status == KEYSET_OUT_OF_MEMORY && session->is_open, "out of memory", line);
        expect(requests.made >= requests.failing, "a request failed", line);
    }
    size_t failed = requests.failing - 1;
    requests.failing = 0;
    return failed;
}

static void expect_refused(struct keyset_session *session, const char *line, const char *wanted)
{
    for (size_t i = 0; i < sizeof REFUSED / sizeof *REFUSED; i++) {
        expect(note(session, REFUSED[i].line) == REFUSED[i].status, "its status", REFUSED[i].line);
        expect_due(session, line, wanted);
    }
    expect(keyset_note(session, NULL, 0) == KEYSET_MALFORMED, "an empty line", "NULL");
}

/* All calls, then all notes. Gives how many requests failed. */
static size_t play(void)
{
    struct keyset_session session = {0}, other = {0};
    size_t failed = 0, asked = 0;
    uint8_t out[1];
    expect(note(&session, "before 1 1 1") == KEYSET_CLOSED, "a note", "closed");
    expect(is_answer(due(&session, "due 1", out, 1), KEYSET_CLOSED, 0), "a question", "closed");
    open_with(&session, calls);
    requests.failing = 1;
    expect(is_answer(due(&session, "due 1", out, 1), KEYSET_MALFORMED, 0), "no notes", "due");
    requests.failing = 0;
    expect(note(&session, "everywhere ds 1") == KEYSET_MALFORMED, "no first line", "a note");
    for (size_t i = calls; i < all; i++) {
        if (!is_question(lines[i])) {
            failed += fail_note(&session, lines[i]);
            continue;
        }
        const char *wanted = answers[asked++];
        failed += fail_due(&session, lines[i], wanted);
        expect_short(&session, lines[i], wanted);
        expect(keyset_copy(&session, &other) == KEYSET_ANSWERED, "a copy", lines[i]);
        expect_due(&other, lines[i], wanted);
        keyset_close(&other);
    }
    expect(asked > 1 && answers[asked] == NULL, "all answers", "the example");
    expect_refused(&session, lines[all - 1], answers[asked - 1]);
    keyset_close(&session);
    expect(note(&session, "before 1 1 1") == KEYSET_CLOSED, "a note", "closed again");
    return failed;
}

static void expect_forgone(struct keyset_session *session)
{
    uint8_t out[1];
    expect(note(session, lines[calls]) == KEYSET_NO_NOTES, "a note", "forgone");
    expect(note(session, "") == KEYSET_NO_NOTES, "a malformed note", "forgone");
    expect(is_answer(due(session, "due 1", out, 1), KEYSET_MALFORMED, 0), "a question", "forgone");
}

/* A session that forgoes notes takes none, before its calls or after them, and its calls are
   answered as those of one with all notes. So are those of its copy. */
static void play_without(void)
{
    struct keyset_session noted = {0}, forgone = {0}, other = {0};
    expect(keyset_forgo_notes(&forgone) == KEYSET_CLOSED, "forgone", "closed");
    open_with(&noted, calls);
    for (size_t i = 0; i <= calls; i += calls) {
        open_with(&forgone, i > 0 ? i : 1);
        for (size_t j = calls; i > 0 && j < all; j++)
            expect(is_question(lines[j]) || note(&forgone, lines[j]) == KEYSET_ANSWERED, "a note",
                   lines[j]);
        requests.made = 0;
        requests.is_called = true;
        for (size_t j = 0; j < 2; j++)
            expect(keyset_forgo_notes(&forgone) == KEYSET_ANSWERED, "forgone", "open");
        requests.is_called = false;
        expect(requests.made == 0, "no request for memory", "forgone");
        expect_forgone(&forgone);
        for (size_t j = i > 0 ? i : 1; j < calls; j++)
            call(&forgone, lines[j]);
        expect(keyset_copy(&forgone, &other) == KEYSET_ANSWERED, "a copy", "forgone");
        keyset_close(&forgone);
        expect_forgone(&other);
        uint8_t one[ROOM], two[ROOM];
        struct keyset_answered said = keyset_closing(&noted, one, ROOM);
        expect(is_answer(keyset_closing(&other, two, ROOM), KEYSET_ANSWERED, said.length)
               && memcmp(one, two, said.length) == 0, "the closing lines", "forgone");
        keyset_close(&other);
    }
    keyset_close(&noted);
}

/* Each line of the notes as soon as it is taken, between the calls. The session goes on as a copy
   of itself. */
static void play_early(void)
{
    struct keyset_session session = {0}, next = {0};
    size_t at = calls, asked = 0, early = 0;
    open_with(&session, 1);
    for (size_t i = 1; i <= calls; i++) {
        while (at < all && (is_question(lines[at]) ? i == calls
                            : note(&session, lines[at]) == KEYSET_ANSWERED)) {
            if (is_question(lines[at]))
                expect_due(&session, lines[at], answers[asked++]);
            else
                early += i < calls;
            at++;
        }
        if (i == calls)
            break;
        expect(keyset_copy(&session, &next) == KEYSET_ANSWERED, "a copy", lines[i]);
        keyset_close(&session);
        session = next;
        next = (struct keyset_session){0};
        call(&session, lines[i]);
    }
    expect(at == all && early > 5, "all notes, and most of them early", "the example");
    keyset_close(&session);
}

int main(int argc, char **argv)
{
    expect(argc > 2, "session_notes INPUT ANSWERS [STEP]", argv[0]);
    step = argc > 3 ? strtoul(argv[3], NULL, 10) : 1;
    read_input(argv[1]);
    read_answers(argv[2]);
    size_t failed = play();
    play_early();
    play_without();
    printf("%zu calls and %zu notes line by line, in sessions and copies; %zu requests failed in"
           " turn; %zu lines aren't taken\n",
           calls - 1, all - calls, failed, sizeof REFUSED / sizeof *REFUSED);
    return EXIT_SUCCESS;
}
