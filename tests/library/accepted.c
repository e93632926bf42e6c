/* Tests calls that a session makes only if they are accepted, over stored scripts:

       accepted STORED [STEP]

   Each line is answered as stored. An accepted call gets the next number. A refused one, a
   malformed line and each request for memory that fails leave calls, status and closing lines as
   they were, and the session open. At the end the session answers as one that has made only the
   accepted calls, also by notes with the numbers of these calls. Threads ask one session side by
   side. The texts of statuses and of the release fit into the header's room. The linker has malloc,
   realloc and free of the library come here: -Wl,--wrap=malloc,--wrap=realloc,--wrap=free */

#define _GNU_SOURCE
#include "stored.h"

#include <keyset.h>

#include <pthread.h>

#define THREADS 4
#define ROUNDS 4000
#define ROOM (1 << 16)
#define LATE "18446744073709551615"
#define BEFORE "before 60 60 60"

static size_t step = 1;
/* At most one script in so many has its requests for memory fail. */
enum { SOME = 8 };

static uint32_t accept_line(struct keyset_session *session, const char *line, size_t length)
{
    requests.is_called = true;
    uint32_t status = keyset_accept(session, (const uint8_t *)line, length);
    requests.is_called = false;
    return status;
}

typedef struct keyset_answered (*question)(const struct keyset_session *, uint8_t *, size_t);

/* The answer to a question, as a new text. */
static char *answer_of(question asked, const struct keyset_session *session)
{
    uint8_t *out = filled(ROOM);
    struct keyset_answered outcome = asked(session, out, ROOM);
    expect(outcome.status == KEYSET_ANSWERED && outcome.line == 0, "answered", "a question");
    char *text = strndup((const char *)out, outcome.length);
    expect(text != NULL, "memory for a text", "a question");
    free(out);
    return text;
}

/* All that a session answers about its calls. */
struct answers {
    char *last, *closing, *status;
    size_t calls;
};

static struct answers answers_of(const struct keyset_session *session)
{
    return (struct answers){answer_of(keyset_told, session), answer_of(keyset_closing, session),
                            answer_of(keyset_status, session), keyset_calls(session)};
}

static void forget(struct answers *answers)
{
    free(answers->last);
    free(answers->closing);
    free(answers->status);
}

/* It answers the same, and its last answer is the given one. */
static void expect_same(const struct keyset_session *session, const struct answers *before,
                        const char *answer, const char *name)
{
    struct answers now = answers_of(session);
    expect(session->is_open && now.calls == before->calls, "the same calls", name);
    expect(strcmp(now.closing, before->closing) == 0, "the same closing lines", name);
    expect(strcmp(now.status, before->status) == 0, "the same status", name);
    expect(strcmp(now.last, answer) == 0, "the answer", name);
    forget(&now);
}

static size_t length_of_line(const char *line)
{
    return strcspn(line, "\n");
}

static void expect_malformed(struct keyset_session *session)
{
    static const char *const lines[] = {"", "rubbish", "abort ksk-roll ", "delete K1\n",
                                        "add-ksk K1 P1 13 1 0 maybe", "start ksk-roll K1 K2 now"};
    struct answers before = answers_of(session);
    for (size_t i = 0; i < sizeof lines / sizeof *lines; i++) {
        size_t made = requests.made;
        uint32_t status = accept_line(session, lines[i], strlen(lines[i]));
        expect(status == KEYSET_MALFORMED, "malformed", lines[i]);
        expect(requests.made == made, "no request for memory", lines[i]);
        expect_same(session, &before, before.last, lines[i]);
    }
    forget(&before);
}

/* Makes the call after each of its requests has failed in turn. Gives how many did. */
static size_t fail_accept(struct keyset_session *session, const char *line, size_t length,
                          uint32_t *status)
{
    struct answers before = answers_of(session);
    for (requests.failing = 1;; requests.failing++) {
        requests.made = 0;
        *status = accept_line(session, line, length);
        if (requests.made < requests.failing || *status != KEYSET_OUT_OF_MEMORY)
            break;
        expect_same(session, &before, before.last, "without memory");
    }
    size_t failed = requests.failing - 1;
    requests.failing = 0;
    forget(&before);
    return failed;
}

/* ---- notes by the numbers of calls */

static struct {
    char line[64];
} notes[1 << 13];
static size_t note_count;

static void note_line(struct keyset_session *session, const char *line)
{
    uint32_t status = keyset_note(session, (const uint8_t *)line, strlen(line));
    expect(status == KEYSET_ANSWERED, "a line of notes", line);
}

/* All servers give the sets of the last call at the latest moment. */
static void note_call(struct keyset_session *session, size_t number)
{
    static const char *const kinds[] = {"ds", "dnskey", "zone"};
    for (size_t i = 0; i < 3; i++) {
        snprintf(notes[note_count].line, sizeof notes->line, "published %s %zu 60 %s", kinds[i],
                 number, LATE);
        snprintf(notes[note_count + 1].line, sizeof notes->line, "everywhere %s %s", kinds[i],
                 LATE);
        note_line(session, notes[note_count++].line);
        note_line(session, notes[note_count++].line);
    }
}

/* As after a restart: the session has the kept lines, and takes the notes after them. Both say that
   the same reports are due. */
static void expect_same_due(const struct keyset_session *session, struct keyset_session *kept,
                            const char *name)
{
    uint8_t *one = filled(ROOM), *other = filled(ROOM);
    note_line(kept, BEFORE);
    for (size_t i = 0; i < note_count; i++)
        note_line(kept, notes[i].line);
    struct keyset_answered first = keyset_due(session, UINT64_MAX, one, ROOM);
    struct keyset_answered second = keyset_due(kept, UINT64_MAX, other, ROOM);
    expect(first.status == KEYSET_ANSWERED && second.status == KEYSET_ANSWERED, "due", name);
    expect(first.length == second.length && memcmp(one, other, ROOM) == 0, "the same reports",
           name);
    free(one);
    free(other);
}

/* The lines of a script by `accept`, and those that are accepted also by `call`. */
static size_t play(const struct stored *it, bool fails)
{
    struct keyset_session session = {0}, kept = {0};
    const char *line = it->script, *wanted = it->answer;
    size_t length = length_of_line(line), accepted = 0, failed = 0;
    uint8_t *out = filled(ROOM);
    expect(accept_line(&session, line, length) == KEYSET_CLOSED, "closed", it->name);
    expect(keyset_calls(&session) == 0, "no calls of a closed session", it->name);
    keyset_open((const uint8_t *)line, length, &session);
    keyset_open((const uint8_t *)line, length, &kept);
    note_line(&session, BEFORE);
    note_count = 0;
    for (line += length + (line[length] == '\n'); *line != '\0';) {
        struct answers before = answers_of(&session);
        size_t needed = length_of_line(wanted) + 1;
        uint32_t status;
        length = length_of_line(line);
        if (fails)
            failed += fail_accept(&session, line, length, &status);
        else
            status = accept_line(&session, line, length);
        char *answer = answer_of(keyset_told, &session);
        expect(strlen(answer) == needed && memcmp(answer, wanted, needed) == 0, "as stored",
               it->name);
        if (strncmp(answer, "ok", 2) == 0) {
            expect(status == KEYSET_ANSWERED, "accepted", it->name);
            expect(keyset_calls(&session) == ++accepted, "its number", it->name);
            struct keyset_answered same =
                keyset_call(&kept, (const uint8_t *)line, length, out, ROOM);
            expect(same.length == needed && same.line == 0, "the same call", it->name);
            note_call(&session, accepted);
        } else {
            expect(status == KEYSET_REFUSED, "refused", it->name);
            expect_same(&session, &before, answer, it->name);
        }
        free(answer);
        forget(&before);
        wanted += needed;
        line += length + (line[length] == '\n');
    }
    expect_malformed(&session);
    struct answers last = answers_of(&kept);
    char *answer = answer_of(keyset_told, &session);
    expect_same(&session, &last, answer, it->name);
    expect_same_due(&session, &kept, it->name);
    free(answer);
    forget(&last);
    keyset_close(&kept);
    keyset_close(&session);
    free(out);
    return failed;
}

/* ---- threads */

/* What a thread gets: the session that it asks, and what has to be answered. */
struct asker {
    const struct keyset_session *session;
    const struct answers *answers;
};

/* Asks a session that other threads ask, too. */
static void *ask_beside(void *own)
{
    const struct asker *asker = own;
    struct keyset_session copy = {0};
    requests.failing = 0;
    for (size_t i = 0; i < ROUNDS / step; i++) {
        expect_same(asker->session, asker->answers, asker->answers->last, "beside other threads");
        expect(keyset_copy(asker->session, &copy) == KEYSET_ANSWERED, "a copy", "in a thread");
        keyset_close(&copy);
    }
    return NULL;
}

static void play_beside(const struct stored *it)
{
    struct keyset_session session = {0};
    pthread_t threads[THREADS];
    const char *line = it->script;
    size_t length = length_of_line(line);
    keyset_open((const uint8_t *)line, length, &session);
    for (line += length + (line[length] == '\n'); *line != '\0';) {
        length = length_of_line(line);
        accept_line(&session, line, length);
        line += length + (line[length] == '\n');
    }
    struct answers answers = answers_of(&session);
    struct asker asker = {&session, &answers};
    for (size_t i = 0; i < THREADS; i++)
        expect(pthread_create(&threads[i], NULL, ask_beside, &asker) == 0, "a thread", it->name);
    for (size_t i = 0; i < THREADS; i++)
        expect(pthread_join(threads[i], NULL) == 0, "its end", it->name);
    forget(&answers);
    keyset_close(&session);
}

/* ---- texts */

static void expect_text(struct keyset_answered outcome, const uint8_t *out, const char *wanted)
{
    expect(outcome.status == KEYSET_ANSWERED && outcome.line == 0, "answered", wanted);
    expect(outcome.length == strlen(wanted) && memcmp(out, wanted, outcome.length) == 0, "a text",
           wanted);
    expect(is_filled(out + outcome.length, KEYSET_TEXT_ROOM - outcome.length),
           "what comes after it", wanted);
}

static void expect_texts(void)
{
    static const char *const texts[] = {
        "answered", "malformed", "no such status", "out of memory", "short of room",
        "the session is closed", "the session is open", "no such call yet",
        "seen before it was published", "moment before the last one", "refused",
        "published before its call", "out of memory in a call: the session is closed",
        "the policy, the script or the notes are refused", "the session forgoes notes",
        "no such status",
    };
    for (uint32_t status = 0; status < sizeof texts / sizeof *texts; status++) {
        uint8_t *out = filled(KEYSET_TEXT_ROOM);
        expect_text(keyset_status_text(status, out, KEYSET_TEXT_ROOM), out, texts[status]);
        free(out);
    }
    uint8_t *out = filled(KEYSET_TEXT_ROOM);
    expect_text(keyset_version_text(out, KEYSET_TEXT_ROOM), out, KEYSET_RELEASE);
    struct keyset_answered outcome = keyset_version_text(NULL, 0);
    expect(outcome.status == KEYSET_SHORT && outcome.length == strlen(KEYSET_RELEASE), "short",
           "texts");
    free(out);
}

int main(int argc, char **argv)
{
    size_t failed = 0;
    expect(argc > 1, "accepted STORED [STEP]", argv[0]);
    step = argc > 2 ? strtoul(argv[2], NULL, 10) : 1;
    read_stored(argv[1]);
    expect_texts();
    for (size_t i = 0; i < scripts; i++) {
        play(&stored[i], false);
        if (i % (step < SOME ? SOME : step) == 0)
            failed += play(&stored[i], true);
    }
    expect(failed > 0, "requests that fail", argv[0]);
    for (size_t i = 0; i < scripts; i += scripts / 2)
        play_beside(&stored[i]);
    printf("%zu scripts by calls that have to be accepted, %zu requests failed in turn, %d threads"
           " ask one session\n", scripts, failed, THREADS);
    free(stored);
    return EXIT_SUCCESS;
}
