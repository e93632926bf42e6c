/* Tests the library at its border, over stored scripts with their answers:

       library STORED [STEP]

   Each script is answered as stored, in a buffer of each length up to the one needed (only every
   STEP lengths, if a checker of memory makes it slow), and side by side in threads. Each thread
   takes the scripts in an order of its own. With STEP 0 only the threads run. Each beginning of a
   script, and scripts with damaged bytes, are called malformed exactly if a second reader does, and
   at the same line. Each request for memory fails in turn. If a call got no memory, the rest is
   answered as if the call had not been made. The linker has malloc, realloc and free of the library
   come here: -Wl,--wrap=malloc,--wrap=realloc,--wrap=free */

#define _GNU_SOURCE
#include "reader.h"
#include "stored.h"

#include <keyset.h>

#include <pthread.h>
#include <stdbool.h>
#include <stdio.h>
#include <stdlib.h>
#include <string.h>

#define THREADS 4
#define ROUNDS 8
#define REFUSED "refused: out of memory\n"
/* How often each script is damaged, and what is put in. */
#define DAMAGES 200
static const char *const PIECES[] = {
    "\n", " ", ",", "-", "\\", ".", "0", "9", "\r", "\t", "\x7F", "\x80", "\xFE", "\n\n", "  ",
    ",,", "-,", "000", "256", "65536", "4294967296", "18446744073709551616",
    "000000000000000000001", "yes", "ED448", "abort ", "zone ", "CSK-roll",
};

/* A call in which the request of this number fails; with 0 none does. */
static struct keyset_answered ask(const char *script, size_t length, uint8_t *out, size_t room,
                                  size_t failing)
{
    requests.made = requests.held = 0;
    requests.failing = failing;
    requests.is_called = true;
    struct keyset_answered outcome =
        keyset_answer((const uint8_t *)script, length, out, room);
    requests.is_called = false;
    expect(requests.held == 0, "nothing is kept", "library");
    return outcome;
}

static void expect_answer(const struct stored *it, size_t room)
{
    uint8_t *out = filled(room);
    struct keyset_answered outcome = ask(it->script, it->script_length, out, room, 0);
    if (room < it->answer_length) {
        expect_too_short(outcome, it->answer_length, out, room, it->name);
    } else {
        expect(is_answer(outcome, KEYSET_ANSWERED, it->answer_length), "answered", it->name);
        expect(memcmp(out, it->answer, outcome.length) == 0, "the answer", it->name);
        expect(is_filled(out + outcome.length, room - outcome.length), "what comes after it",
               it->name);
    }
    free(out);
}

static void expect_malformed(const char *script, size_t length, size_t line)
{
    uint8_t out[64];
    memset(out, FILLER, sizeof out);
    struct keyset_answered outcome = ask(script, length, out, sizeof out, 0);
    expect(outcome.status == KEYSET_MALFORMED, "malformed", script);
    expect(outcome.line == line && outcome.length == 0, "its line", script);
    expect(is_filled(out, sizeof out), "nothing is written if it is malformed", script);
}

/* Room for any answer to a script of this length. */
static size_t ample(size_t length)
{
    return 8 * length + 4096;
}

/* The text is answered if the second reader takes it for a script; else it is called malformed at
   the line that the second reader names. */
static void expect_as_read(const char *text, size_t length, const char *name)
{
    static uint8_t out[1 << 20];
    size_t room = ample(length) < sizeof out ? ample(length) : sizeof out;
    struct keyset_answered outcome = ask(text, length, out, room, 0);
    size_t line = first_malformed_line(text, length);
    expect(outcome.line == line, "the malformed line", name);
    expect(outcome.status == (line > 0 ? KEYSET_MALFORMED : KEYSET_ANSWERED), "malformed", name);
}

/* No roll's name begins another, and their words are lower case. */
static const char NAMES[] = "zone example.com\ndone algorithm-roll\ndone CSK-roll\n";

static size_t expect_beginnings(const struct stored *it, size_t step)
{
    size_t beginnings = 0;
    for (size_t length = 0; length < it->script_length; length += step, beginnings++)
        expect_as_read(it->script, length, it->name);
    return beginnings;
}

/* The next of numbers that look random, and are the same in each run. */
static size_t draw(size_t below)
{
    static unsigned short state[3] = {1};
    return (size_t)nrand48(state) % below;
}

/* Flips a bit, puts a piece in or leaves some bytes out, in one to three places. */
static void expect_damaged(const struct stored *it)
{
    static char text[1 << 16];
    size_t length = it->script_length;
    memcpy(text, it->script, length);
    for (size_t left = 1 + draw(3); left > 0 && length > 0; left--) {
        size_t at = draw(length), kind = draw(3);
        if (kind == 0) {
            text[at] ^= (char)(1 << draw(8));
            continue;
        }
        const char *piece = kind == 1 ? PIECES[draw(sizeof PIECES / sizeof *PIECES)] : "";
        size_t gone = kind == 1 ? draw(2) : 1 + draw(3), put = strlen(piece);
        gone = gone < length - at ? gone : length - at;
        memmove(text + at + put, text + at + gone, length - at - gone);
        memcpy(text + at, piece, put);
        length += put - gone;
    }
    expect_as_read(text, length, it->name);
}

static const char *behind_line(const char *text, size_t lines)
{
    for (; lines > 0; lines--)
        text = strchr(text, '\n') + 1;
    return text;
}

/* If the call of this number got no memory, its refusal is followed by the answers to the script
   without it. The chain line may differ: it names positions, and this call has one too. */
static void expect_rest(const struct stored *it, const char *rest, size_t call)
{
    const char *line = behind_line(it->script, call), *next = behind_line(line, 1);
    size_t before = (size_t)(line - it->script), length = it->script_length - (size_t)(next - line);
    char *script = malloc(length);
    expect(script != NULL, "memory for a script", it->name);
    memcpy(script, it->script, before);
    memcpy(script + before, next, length - before);
    char *out = (char *)filled(ample(length));
    struct keyset_answered outcome = ask(script, length, (uint8_t *)out, ample(length), 0);
    expect(outcome.status == KEYSET_ANSWERED, "answered without a call", it->name);
    out[outcome.length] = '\0';
    const char *wanted = behind_line(out, call - 1), *chain = strstr(wanted, "\nchain ");
    bool is_so = chain != NULL && strncmp(rest, wanted, (size_t)(chain - wanted)) == 0;
    expect(is_so, "the rest", it->name);
    free(script);
    free(out);
}

/* The text before the first call that was refused for lack of memory is a beginning of the answer.
   If no call was, it is the whole answer. */
static void expect_until_refused(const struct stored *it, const char *out, size_t length)
{
    const char *refused = memmem(out, length, REFUSED, strlen(REFUSED));
    size_t before = refused == NULL ? length : (size_t)(refused - out), call = 1;
    bool is_so = before <= it->answer_length && memcmp(out, it->answer, before) == 0;
    expect(is_so, "its calls", it->name);
    expect(refused != NULL || length == it->answer_length, "all of its calls", it->name);
    if (refused == NULL)
        return;
    for (const char *at = out; at < refused; at++)
        call += *at == '\n';
    expect_rest(it, refused + strlen(REFUSED), call);
}

/* Lets each request of a call fail. Gives their number. */
static size_t fail_in_turn(const struct stored *it)
{
    size_t room = it->script_length + it->answer_length + 1024;
    for (size_t failing = 1;; failing++) {
        uint8_t *out = filled(room);
        struct keyset_answered outcome = ask(it->script, it->script_length, out, room, failing);
        bool has_failed = requests.made >= failing;
        if (outcome.status == KEYSET_OUT_OF_MEMORY) {
            expect(outcome.length == 0 && outcome.line == 0, "no length and no line", it->name);
            expect(is_filled(out, room), "nothing is written without memory", it->name);
        } else {
            expect(outcome.status == KEYSET_ANSWERED, "answered, or out of memory", it->name);
            out[outcome.length] = '\0';
            expect_until_refused(it, (const char *)out, outcome.length);
        }
        free(out);
        if (!has_failed)
            return failing - 1;
    }
}

static size_t divisor(size_t a, size_t b)
{
    return b == 0 ? a : divisor(b, a % b);
}

/* The scripts in an order of the thread's own. Its stride and their number have no divisor in
   common. */
static void *answer_all(void *number)
{
    size_t thread = *(const size_t *)number, stride = 1, at = thread * scripts / THREADS;
    for (size_t left = thread; left > 0; left -= divisor(++stride, scripts) == 1)
        ;
    for (size_t i = 0; i < ROUNDS * scripts; i++, at = (at + stride) % scripts)
        expect_answer(&stored[at], stored[at].answer_length);
    return NULL;
}

static void answer_side_by_side(void)
{
    pthread_t threads[THREADS];
    size_t numbers[THREADS];
    for (size_t i = 0; i < THREADS; i++) {
        numbers[i] = i;
        bool began = pthread_create(&threads[i], NULL, answer_all, &numbers[i]) == 0;
        expect(began, "a thread", "library");
    }
    for (size_t i = 0; i < THREADS; i++)
        pthread_join(threads[i], NULL);
}

int main(int argc, char **argv)
{
    size_t step = argc > 2 ? strtoul(argv[2], NULL, 10) : 1;
    size_t lengths = 0, failed = 0, beginnings = 0, damaged = 0;
    expect(argc > 1, "library STORED [STEP]", argv[0]);
    expect(keyset_version() == KEYSET_VERSION, "the version", argv[0]);
    read_stored(argv[1]);
    if (step == 0) {
        answer_side_by_side();
        free(stored);
        return EXIT_SUCCESS;
    }

    for (size_t i = 0; i < scripts; i++) {
        size_t needed = stored[i].answer_length;
        for (size_t room = 0; room + 1 < needed; room += step, lengths++)
            expect_answer(&stored[i], room);
        for (size_t room = needed - 1; room < needed + 2; room++, lengths++)
            expect_answer(&stored[i], room);
        if (i % step == 0)
            failed += fail_in_turn(&stored[i]);
        beginnings += expect_beginnings(&stored[i], step);
        for (size_t left = 0; left < DAMAGES; left += step, damaged++)
            expect_damaged(&stored[i]);
    }

    struct stored names = {.name = "names", .script = NAMES, .script_length = strlen(NAMES)};
    beginnings += expect_beginnings(&names, 1);
    expect_malformed("", 0, 1);
    expect_malformed("\n", 1, 1);
    expect_malformed("zone", 4, 1);
    expect_malformed("zone example.com\n\n", 18, 2);
    expect_malformed("zone example.com\ndelete K1\ndelete K1 \n", 38, 3);
    expect_malformed("zone example.com\ndelete K1\ndelete\0K1\n", 37, 3);
    expect_malformed("zone example.com\r\ndelete K1\n", 28, 1);

    answer_side_by_side();
    free(stored);
    printf("%zu scripts in buffers of %zu lengths, and in the orders of %d threads; %zu beginnings "
           "and %zu damaged scripts; %zu requests of scripts failed in turn\n",
           scripts, lengths, THREADS, beginnings, damaged, failed);
    return EXIT_SUCCESS;
}
