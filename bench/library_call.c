/* Times the library on the script on standard input, in one process. It prints one line: the least
   nanoseconds of `keyset_answer`, of a script's line in a session, of `keyset_closing` and of
   `keyset_status` after the last line, and the bytes that malloc hands out for the session: for one
   that forgoes notes, and for one that doesn't. */

#include <keyset.h>

#include <malloc.h>
#include <stdbool.h>
#include <stdio.h>
#include <stdlib.h>
#include <string.h>
#include <time.h>

#define ROUNDS 20
#define SECOND 1e9
#define SESSIONS 1000
/* Of a long script there are fewer sessions. */
#define LONG 20000
#define SOME 100

static uint8_t script[1 << 23], out[1 << 23];
static size_t length, lines;

static double now(void)
{
    struct timespec time;
    clock_gettime(CLOCK_MONOTONIC, &time);
    return SECOND * (double)time.tv_sec + (double)time.tv_nsec;
}

static void expect(uint32_t status)
{
    if (status != KEYSET_ANSWERED)
        exit(EXIT_FAILURE);
}

/* Opens a session with the first line, and hands in the others. */
static void play(struct keyset_session *session, bool forgoes)
{
    const uint8_t *line = script, *end = script + length;
    for (bool is_first = true; line < end; is_first = false) {
        size_t taken = (size_t)((const uint8_t *)memchr(line, '\n', (size_t)(end - line)) - line);
        expect(is_first ? keyset_open(line, taken, session)
                        : keyset_call(session, line, taken, out, sizeof out).status);
        if (is_first && forgoes)
            expect(keyset_forgo_notes(session));
        line += taken + 1;
    }
}

static void answer(struct keyset_session *session)
{
    (void)session;
    expect(keyset_answer(script, length, out, sizeof out).status);
}

static void play_once(struct keyset_session *session)
{
    struct keyset_session other = {0};
    (void)session;
    play(&other, false);
    keyset_close(&other);
}

static void closing(struct keyset_session *session)
{
    expect(keyset_closing(session, out, sizeof out).status);
}

static void status(struct keyset_session *session)
{
    expect(keyset_status(session, out, sizeof out).status);
}

/* The bytes that malloc has handed out: of its heap, and those that it maps for long lists. */
static size_t handed_out(void)
{
    struct mallinfo2 all = mallinfo2();
    return all.uordblks + all.hblkhd;
}

/* The bytes of a session of the script. The first one stays open, and isn't counted: by it malloc
   has come to keep what it keeps of what it gets back. */
static size_t bytes_of(struct keyset_session *sessions, size_t count, bool forgoes)
{
    play(sessions, forgoes);
    size_t before = handed_out();
    for (size_t i = 1; i < count; i++)
        play(&sessions[i], forgoes);
    size_t bytes = (handed_out() - before) / (count - 1);
    for (size_t i = 1; i < count; i++)
        keyset_close(&sessions[i]);
    return bytes;
}

/* The least nanoseconds of many calls. */
static double least(void (*call)(struct keyset_session *), struct keyset_session *session)
{
    double began = now(), found = 1e18;
    for (int calls = 0; calls < ROUNDS || now() - began < SECOND / 2; calls++) {
        double before = now();
        call(session);
        double taken = now() - before;
        found = taken < found ? taken : found;
    }
    return found;
}

int main(void)
{
    static struct keyset_session sessions[SESSIONS], forgoing[SESSIONS];
    length = fread(script, 1, sizeof script, stdin);
    for (size_t i = 0; i < length; i++)
        lines += script[i] == '\n';

    size_t count = lines < LONG ? SESSIONS : SOME;
    size_t few = bytes_of(forgoing, count, true), bytes = bytes_of(sessions, count, false);
    double whole = least(answer, NULL), played = least(play_once, NULL);
    double closed = least(closing, sessions), shown = least(status, sessions);
    printf("%.0f %.1f %.0f %.0f %zu %zu\n", whole, played / (double)lines, closed, shown, few,
           bytes);
    keyset_close(sessions);
    keyset_close(forgoing);
    return EXIT_SUCCESS;
}
