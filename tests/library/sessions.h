/* The calls of sessions at the border of the library, with its requests counted, and what is
   expected of a session, as sessions.c tests it. */

#ifndef SESSIONS_H
#define SESSIONS_H

#include "stored.h"

#include <keyset.h>

/* Room for any answer to a line, and for any status of the stored scripts. */
#define LINE_ROOM 512
#define ROOM (1 << 16)

static const char *const MALFORMED[] = {
    "", " ", "\n", "zone example.com", "abort", "abort ksk-roll ", "delete K1\n",
    "delete K1\ndelete K2",
    "report1 ksk-roll 4294967296 0", "wait1 ksk-roll 18446744073709551616", "delete \xFF",
    "add-ksk K1 P1 13 1 0 maybe", "add-public K1 13 65536 0 yes", "start ksk-roll K1,K2 K3,K4",
    "start ksk-roll K1,K2 K3,K4 now", "start ksk-roll K1,K2 K3, 0", "start ksk-roll K1 K2 0 ",
};
#define MALFORMED_LINES (sizeof MALFORMED / sizeof *MALFORMED)

/* Only every so many lengths of a buffer are tried. */
static size_t step = 1;

/* ---- the calls of the library, with its requests counted */

static uint32_t open_line(struct keyset_session *session, const char *line, size_t length)
{
    requests.is_called = true;
    uint32_t status = keyset_open((const uint8_t *)line, length, session);
    requests.is_called = false;
    return status;
}

static struct keyset_answered call(struct keyset_session *session, const char *line, size_t length,
                                   uint8_t *out, size_t room)
{
    requests.is_called = true;
    struct keyset_answered outcome =
        keyset_call(session, (const uint8_t *)line, length, out, room);
    requests.is_called = false;
    return outcome;
}

typedef struct keyset_answered (*question)(const struct keyset_session *, uint8_t *, size_t);
static const question QUESTIONS[] = {keyset_told, keyset_closing, keyset_status};

static struct keyset_answered ask(question asked, struct keyset_session *session, uint8_t *out,
                                  size_t room)
{
    requests.is_called = true;
    struct keyset_answered outcome = asked(session, out, room);
    requests.is_called = false;
    return outcome;
}

static uint32_t copy(struct keyset_session *session, struct keyset_session *other)
{
    requests.is_called = true;
    uint32_t status = keyset_copy(session, other);
    requests.is_called = false;
    return status;
}

static void close_session(struct keyset_session *session)
{
    requests.is_called = true;
    keyset_close(session);
    requests.is_called = false;
    expect(session->place == NULL && !session->is_open, "all zeros once closed", "close");
}

/* ---- what is expected */

/* The answer to a question, as a new text. */
static char *answer_of(question asked, struct keyset_session *session)
{
    uint8_t *out = filled(ROOM);
    struct keyset_answered outcome = ask(asked, session, out, ROOM);
    expect(outcome.status == KEYSET_ANSWERED && outcome.line == 0, "answered", "a question");
    expect(is_filled(out + outcome.length, ROOM - outcome.length), "what comes after it",
           "a question");
    out[outcome.length] = '\0';
    char *text = strdup((const char *)out);
    expect(text != NULL, "memory for a text", "a question");
    free(out);
    return text;
}

static void expect_answer(question asked, struct keyset_session *session, const char *wanted,
                          const char *name)
{
    char *text = answer_of(asked, session);
    expect(strcmp(text, wanted) == 0, "the same answer", name);
    free(text);
}

/* If the room is too short, nothing is written, and nothing is lost. */
static void expect_short(question asked, struct keyset_session *session)
{
    char *text = answer_of(asked, session);
    size_t needed = strlen(text);
    for (size_t room = 0; room < needed; room += step) {
        uint8_t *out = filled(room);
        struct keyset_answered outcome = ask(asked, session, room > 0 ? out : NULL, room);
        expect_too_short(outcome, needed, out, room, text);
        free(out);
    }
    uint8_t *out = filled(needed);
    struct keyset_answered outcome = ask(asked, session, out, needed);
    expect(is_answer(outcome, KEYSET_ANSWERED, needed), "exact room", text);
    expect(memcmp(out, text, needed) == 0, "the answer in exact room", text);
    free(out);
    free(text);
}

/* Each call says that a session is closed, and does nothing. */
static void expect_closed(struct keyset_session *session)
{
    uint8_t out[8];
    memset(out, FILLER, sizeof out);
    struct keyset_session other = {0};
    requests.made = requests.held = requests.failing = 0;
    struct keyset_answered outcome = call(session, "delete K1", 9, out, sizeof out);
    expect(is_answer(outcome, KEYSET_CLOSED, 0), "a call", "closed");
    for (size_t i = 0; i < 3; i++) {
        outcome = ask(QUESTIONS[i], session, out, sizeof out);
        expect(is_answer(outcome, KEYSET_CLOSED, 0), "a question", "closed");
    }
    expect(copy(session, &other) == KEYSET_CLOSED, "copied", "closed");
    expect(!other.is_open && is_filled(out, sizeof out), "nothing is done", "closed");
    close_session(session);
    expect(requests.made == 0 && requests.held == 0, "no memory is asked for", "closed");
}

/* A copy answers each question as the session does, and isn't overwritten by a second one. */
static void expect_copy(struct keyset_session *session)
{
    struct keyset_session other = {0};
    expect(copy(session, &other) == KEYSET_ANSWERED, "a copy", "copied");
    expect(copy(session, &other) == KEYSET_IS_OPEN, "a second copy", "copied");
    for (size_t i = 0; i < 3; i++) {
        char *answer = answer_of(QUESTIONS[i], session);
        expect_answer(QUESTIONS[i], &other, answer, "copied");
        free(answer);
    }
    close_session(&other);
}

/* Each malformed line leaves the session as it was. */
static void expect_malformed(struct keyset_session *session)
{
    char *closing = answer_of(keyset_closing, session), *last = answer_of(keyset_told, session);
    for (size_t i = 0; i < MALFORMED_LINES; i++) {
        uint8_t out[64];
        memset(out, FILLER, sizeof out);
        size_t length = strlen(MALFORMED[i]), made = requests.made;
        struct keyset_answered outcome =
            call(session, length > 0 ? MALFORMED[i] : NULL, length, out, sizeof out);
        expect(is_answer(outcome, KEYSET_MALFORMED, 0), "malformed", MALFORMED[i]);
        expect(requests.made == made, "no request for memory", MALFORMED[i]);
        expect(is_filled(out, sizeof out), "nothing is written", MALFORMED[i]);
    }
    expect_answer(keyset_closing, session, closing, "after malformed lines");
    expect_answer(keyset_told, session, last, "after malformed lines");
    free(closing);
    free(last);
}

/* A copy makes the call with too little room for its answer; the session stays as it was. */
static void expect_short_call(struct keyset_session *session, const char *line, size_t length,
                              const char *wanted, size_t needed)
{
    char *before = answer_of(keyset_closing, session);
    for (size_t room = 0; room < needed; room += step) {
        struct keyset_session tried = {0};
        expect(copy(session, &tried) == KEYSET_ANSWERED, "a copy", line);
        uint8_t *out = filled(room);
        struct keyset_answered outcome = call(&tried, line, length, room > 0 ? out : NULL, room);
        expect_too_short(outcome, needed, out, room, line);
        char *again = answer_of(keyset_told, &tried);
        expect(strncmp(again, wanted, needed) == 0 && strlen(again) == needed, "it again", line);
        free(again);
        free(out);
        close_session(&tried);
    }
    expect_answer(keyset_closing, session, before, "after its copies");
    free(before);
}

#endif
