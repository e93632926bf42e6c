/* Tests sessions of the library at their border, over stored scripts with their answers:

       sessions STORED [STEP]

   Each script is played line by line, and the session's answers together are the stored answer. The
   same goes for a buffer of each length (only every STEP lengths, as a checker of memory makes it
   slow), between malformed lines that change nothing, and side by side in threads, each with its
   sessions in an order of its own. Copies of one session go to threads, too. Each request for
   memory fails in turn: the session is as it was, and answers the line as stored when it is made
   again; a call that is refused for it changes nothing; a session that is lost says so, and goes on
   from its lines. A malformed line, and one that names no zone, makes no request. Each call says
   that a closed handle is closed; such a handle may be opened again. The linker has malloc, realloc
   and free of the library come here: -Wl,--wrap=malloc,--wrap=realloc,--wrap=free */

#define _GNU_SOURCE
#include "sessions.h"

#include <pthread.h>
#include <stdio.h>
#include <stdlib.h>
#include <string.h>

#define THREADS 4
#define BESIDE 8
#define COPIES 20000
#define REFUSED "refused: out of memory\n"

/* ---- a script, line by line */

struct play {
    const struct stored *it;
    struct keyset_session session;
    const char *line, *wanted;
};

static size_t length_of_line(const char *line)
{
    return strcspn(line, "\n");
}

static bool begin(struct play *play, const struct stored *it)
{
    *play = (struct play){.it = it, .wanted = it->answer};
    size_t length = length_of_line(it->script);
    play->line = it->script + length + (it->script[length] == '\n');
    return open_line(&play->session, it->script, length) == KEYSET_ANSWERED;
}

/* The next line, with its part of the stored answer. */
static void next(struct play *play)
{
    uint8_t *out = filled(LINE_ROOM);
    size_t length = length_of_line(play->line), needed = length_of_line(play->wanted) + 1;
    struct keyset_answered outcome = call(&play->session, play->line, length, out, LINE_ROOM);
    expect(is_answer(outcome, KEYSET_ANSWERED, needed), "a line", play->it->name);
    expect(memcmp(out, play->wanted, needed) == 0, "its answer", play->it->name);
    expect(is_filled(out + needed, LINE_ROOM - needed), "what comes after it", play->it->name);
    free(out);
    play->line += length + (play->line[length] == '\n');
    play->wanted += needed;
}

static void end(struct play *play)
{
    expect_answer(keyset_closing, &play->session, play->wanted, play->it->name);
    close_session(&play->session);
}

/* A closed session may be opened again, as if it had never been open. */
static void expect_opened_again(struct keyset_session *session)
{
    expect(open_line(session, "zone .", 6) == KEYSET_ANSWERED, "opened again", "closed");
    expect_answer(keyset_told, session, "", "opened again");
    expect_answer(keyset_closing, session, "ds=- dnskey=- signers=- zone=-\nchain safe\n",
                  "opened again");
    close_session(session);
}

static size_t play_alone(const struct stored *it)
{
    struct play play;
    size_t lines = 0;
    requests.held = requests.failing = 0;
    expect(begin(&play, it), "opened", it->name);
    expect_answer(keyset_told, &play.session, "", it->name);
    expect(open_line(&play.session, "zone .", 6) == KEYSET_IS_OPEN, "opened twice", it->name);
    for (; *play.line != '\0'; lines++) {
        size_t length = length_of_line(play.line), needed = length_of_line(play.wanted) + 1;
        if (lines % step == 0)
            expect_short_call(&play.session, play.line, length, play.wanted, needed);
        next(&play);
        if (lines % step == 0) {
            expect_malformed(&play.session);
            expect_copy(&play.session);
        }
    }
    for (size_t i = 0; i < 3; i++)
        expect_short(QUESTIONS[i], &play.session);
    end(&play);
    expect(requests.held == 0, "nothing is kept", it->name);
    expect_closed(&play.session);
    expect_opened_again(&play.session);
    return lines;
}

/* ---- requests for memory that fail */

/* A new session after the lines before this one. */
static struct keyset_session played_again(const struct play *play)
{
    struct play again;
    expect(begin(&again, play->it), "opened anew", play->it->name);
    while (again.line < play->line)
        next(&again);
    return again.session;
}

/* Opens the session that a call has closed again, with the lines before this one. */
static void open_anew(struct play *play)
{
    expect(requests.held == 0, "all is freed", play->it->name);
    expect_closed(&play->session);
    play->session = played_again(play);
}

/* A session without memory for a line says what one says that has the lines before it: all of it,
   or of a call that was refused for that, which has an answer and a number, only the status. */
static void expect_unchanged(struct play *play, bool is_refused)
{
    struct keyset_session before = played_again(play);
    for (size_t i = 0; i < 3; i++) {
        if (is_refused && QUESTIONS[i] != keyset_status)
            continue;
        char *wanted = answer_of(QUESTIONS[i], &before);
        expect_answer(QUESTIONS[i], &play->session, wanted, "without memory for a line");
        free(wanted);
    }
    expect(keyset_calls(&play->session) == keyset_calls(&before) + is_refused, "its calls",
           play->it->name);
    close_session(&before);
}

/* A call that is refused for lack of memory takes some. */
static void expect_to_take_memory(const struct play *play)
{
    const char *line = play->line;
    bool asks = strncmp(play->wanted, "ok ", 3) == 0, adds = strncmp(line, "add-", 4) == 0;
    expect(asks || adds || strncmp(line, "start ", 6) == 0, "a call that takes memory",
           play->it->name);
}

/* How many requests that failed left the session as it was, and how many lost it. */
static struct {
    size_t kept, lost;
} after_failures;

/* Plays a script in which the request of this number fails, and says whether there was one. The
   session answers as stored, after at most one refusal for lack of memory. */
static bool play_failing(const struct stored *it, size_t failing)
{
    struct play play;
    bool has_failed = false, was_refused = false;
    requests.made = requests.held = 0;
    requests.failing = failing;
    if (!begin(&play, it)) {
        expect(requests.made >= failing && requests.held == 0, "not opened", it->name);
        expect_closed(&play.session);
        return true;
    }
    while (*play.line != '\0') {
        uint8_t *out = filled(LINE_ROOM);
        size_t length = length_of_line(play.line), needed = length_of_line(play.wanted) + 1;
        struct keyset_answered outcome = call(&play.session, play.line, length, out, LINE_ROOM);
        bool fails_now = !has_failed && requests.made >= failing;
        has_failed = has_failed || fails_now;
        if (fails_now)
            requests.failing = 0;
        if (outcome.status == KEYSET_OUT_OF_MEMORY || outcome.status == KEYSET_LOST) {
            expect(fails_now, "a request failed", it->name);
            expect(is_answer(outcome, outcome.status, 0), "out of memory", it->name);
            expect(is_filled(out, LINE_ROOM), "nothing is written", it->name);
            if (outcome.status == KEYSET_LOST) {
                open_anew(&play);
                after_failures.lost++;
            } else {
                expect_unchanged(&play, false);
                after_failures.kept++;
            }
        } else if (outcome.length == strlen(REFUSED) && memcmp(out, REFUSED, outcome.length) == 0) {
            expect(fails_now, "refused for memory", it->name);
            expect(is_answer(outcome, KEYSET_ANSWERED, outcome.length), "a refusal", it->name);
            expect_to_take_memory(&play);
            expect_unchanged(&play, true);
            was_refused = true;
        } else {
            expect(is_answer(outcome, KEYSET_ANSWERED, needed), "as stored", it->name);
            expect(memcmp(out, play.wanted, needed) == 0, "as stored", it->name);
            play.line += length + (play.line[length] == '\n');
            play.wanted += needed;
        }
        free(out);
    }
    requests.failing = 0;
    char *closing = answer_of(keyset_closing, &play.session);
    /* A refused call has a position too, so a verdict may have other positions. */
    const char *chain = strstr(play.wanted, "chain ");
    size_t alike = (size_t)(chain - play.wanted) + strlen("chain safe");
    expect(strncmp(closing, play.wanted, alike) == 0, "the closing", it->name);
    expect(was_refused || strcmp(closing, play.wanted) == 0, "the verdict", it->name);
    free(closing);
    close_session(&play.session);
    expect(requests.held == 0, "nothing is kept", it->name);
    return has_failed;
}

/* A question or a copy in which the request of this number fails: it is out of memory. Only the
   status can do without two of its requests, and is then as always; `without` counts such requests.
   They are the first ones for the lists of the sorted keys and of what rolls have listed, which ask
   for room for all. If that fails, the list asks for room for one. */
static bool fail_one(size_t kind, struct keyset_session *session, size_t failing, size_t *without)
{
    struct keyset_session other = {0};
    char *wanted = kind < 3 ? answer_of(QUESTIONS[kind], session) : NULL;
    uint8_t *out = filled(ROOM);
    requests.made = requests.held = 0;
    requests.failing = failing;
    struct keyset_answered outcome = {.status = 0};
    if (kind < 3)
        outcome = ask(QUESTIONS[kind], session, out, ROOM);
    uint32_t status = kind < 3 ? outcome.status : copy(session, &other);
    bool has_failed = requests.made >= failing;
    requests.failing = 0;
    if (status == KEYSET_OUT_OF_MEMORY) {
        expect(has_failed && outcome.length == 0 && outcome.line == 0, "out of memory",
               "a question");
        expect(kind != 0, "it takes no memory", "keyset_told");
        expect(is_filled(out, ROOM) && !other.is_open, "nothing is done", "a question");
    } else {
        expect(status == KEYSET_ANSWERED, "answered, or out of memory", "a question");
        expect(kind == 3 || is_answer(outcome, status, strlen(wanted)), "its members",
               "a question");
        expect(kind == 3 || memcmp(out, wanted, outcome.length) == 0, "the answer", "a question");
        *without += has_failed;
    }
    close_session(&other);
    expect(requests.held == 0, "nothing is kept", "a question");
    free(out);
    free(wanted);
    return has_failed;
}

/* Lets each request of the questions and of a copy fail: the session stays as it was. */
static size_t fail_questions(struct keyset_session *session)
{
    size_t failed = 0;
    char *closing = answer_of(keyset_closing, session), *shown = answer_of(keyset_status, session);
    for (size_t kind = 0; kind < 4; kind++) {
        size_t without = 0;
        for (size_t failing = 1; fail_one(kind, session, failing, &without); failing++)
            failed++;
        expect(without <= (QUESTIONS[kind % 3] == keyset_status && kind < 3 ? 2 : 0), "memory",
               "a question");
        expect_answer(keyset_closing, session, closing, "after questions without memory");
        expect_answer(keyset_status, session, shown, "after questions without memory");
    }
    free(closing);
    free(shown);
    return failed;
}

/* ---- threads */

/* Plays BESIDE scripts at a time, a line of each in turn, from this place in the list. */
static void *play_beside(void *first)
{
    struct play plays[BESIDE] = {0};
    size_t from = (size_t)(uintptr_t)first, done = 0, begun = 0;
    requests.failing = 0;
    while (done < scripts)
        for (size_t i = 0; i < BESIDE; i++) {
            struct play *play = &plays[i];
            if (!play->session.is_open) {
                if (begun < scripts) {
                    const struct stored *it = &stored[(from + begun++) % scripts];
                    expect(begin(play, it), "opened", it->name);
                }
            } else if (*play->line != '\0') {
                next(play);
            } else {
                end(play);
                done++;
            }
        }
    return NULL;
}

/* Copies its session again and again, and closes all. Gives the blocks that it took and didn't
   free. */
static void *play_copies(void *own)
{
    struct keyset_session *session = own;
    requests.held = requests.failing = 0;
    for (size_t i = 0; i < COPIES / step; i++) {
        struct keyset_session other = {0};
        expect(copy(session, &other) == KEYSET_ANSWERED, "a copy", "in a thread");
        close_session(&other);
    }
    close_session(session);
    return (void *)(uintptr_t)requests.held;
}

/* Copies of a session go to threads, which free what they share at the same time. */
static void play_copies_beside(const struct stored *it)
{
    struct play play;
    struct keyset_session copies[THREADS] = {0};
    pthread_t threads[THREADS];
    requests.held = requests.failing = 0;
    expect(begin(&play, it), "opened", it->name);
    while (*play.line != '\0')
        next(&play);
    for (size_t i = 0; i < THREADS; i++)
        expect(copy(&play.session, &copies[i]) == KEYSET_ANSWERED, "a copy", it->name);
    for (size_t i = 0; i < THREADS; i++)
        expect(pthread_create(&threads[i], NULL, play_copies, &copies[i]) == 0, "a thread",
               it->name);
    end(&play);
    size_t held = requests.held;
    for (size_t i = 0; i < THREADS; i++) {
        void *left;
        expect(pthread_join(threads[i], &left) == 0, "its end", it->name);
        held += (size_t)(uintptr_t)left;
    }
    /* (The thread that is the last to use a block frees it.) */
    expect(held == 0, "nothing is kept", it->name);
}

int main(int argc, char **argv)
{
    size_t lines = 0, failed = 0, asked = 0;
    expect(argc > 1, "sessions STORED [STEP]", argv[0]);
    expect(keyset_version() == KEYSET_VERSION, "the version", argv[0]);
    step = argc > 2 ? strtoul(argv[2], NULL, 10) : 1;
    read_stored(argv[1]);

    struct keyset_session never = {0};
    expect_closed(&never);
    requests.failing = 1;
    expect(open_line(&never, NULL, 0) == KEYSET_MALFORMED, "an empty line", argv[0]);
    expect(open_line(&never, "zone ..", 7) == KEYSET_MALFORMED, "a name that is none", argv[0]);
    expect(open_line(&never, "zone .\n", 7) == KEYSET_MALFORMED, "a line feed", argv[0]);
    expect(requests.made == 0, "no request for memory", argv[0]);
    requests.failing = 0;
    expect_closed(&never);

    for (size_t i = 0; i < scripts; i++) {
        lines += play_alone(&stored[i]);
        if (i % step != 0)
            continue;
        for (size_t failing = 1; play_failing(&stored[i], failing); failing++)
            failed++;
        struct play play;
        requests.failing = 0;
        expect(begin(&play, &stored[i]), "opened", stored[i].name);
        while (*play.line != '\0')
            next(&play);
        asked += fail_questions(&play.session);
        end(&play);
    }

    pthread_t threads[THREADS];
    for (size_t i = 0; i < THREADS; i++) {
        void *first = (void *)(uintptr_t)(i * scripts / THREADS);
        expect(pthread_create(&threads[i], NULL, play_beside, first) == 0, "a thread", argv[0]);
    }
    for (size_t i = 0; i < THREADS; i++)
        expect(pthread_join(threads[i], NULL) == 0, "its end", argv[0]);
    for (size_t i = 0; i < scripts; i += scripts / THREADS)
        play_copies_beside(&stored[i]);

    printf("%zu scripts in sessions, %zu lines, %zu requests failed in turn, %zu leave a session as"
           " it was, %zu lose it, %zu more of questions and copies, %d threads\n",
           scripts, lines, failed, after_failures.kept, after_failures.lost, asked, THREADS);
    free(stored);
    return EXIT_SUCCESS;
}
