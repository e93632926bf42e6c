/* Times each line of the script on standard input in a session, in one process: by `keyset_accept`
   with the argument `accept`, and else by `keyset_call`. Each time is the least of some runs. It
   prints how many lines are accepted, and the nanoseconds of a line among the first lines (a
   thousand, or a tenth), of one among as many last lines, and of the slowest of all. */

#include <keyset.h>

#include <stdbool.h>
#include <stdio.h>
#include <stdlib.h>
#include <string.h>
#include <time.h>

#define ROUNDS 5
#define SECOND 1e9
#define SHARE 1000
#define MOST (1 << 20)

static uint8_t script[1 << 26], out[1 << 12];
static double taken[MOST];
static size_t length, lines, accepted;

static double now(void)
{
    struct timespec time;
    clock_gettime(CLOCK_MONOTONIC, &time);
    return SECOND * (double)time.tv_sec + (double)time.tv_nsec;
}

/* Makes the call of a line, and says whether it is accepted. */
static bool make(struct keyset_session *session, const uint8_t *line, size_t count, bool accepts)
{
    if (accepts)
        return keyset_accept(session, line, count) == KEYSET_ANSWERED;
    if (keyset_call(session, line, count, out, sizeof out).status != KEYSET_ANSWERED)
        exit(EXIT_FAILURE);
    return memcmp(out, "ok", 2) == 0;
}

/* Hands in all lines, and keeps the least time of each. */
static void play(bool accepts)
{
    struct keyset_session session = {0};
    const uint8_t *line = script, *end = script + length;
    lines = accepted = 0;
    for (bool is_first = true; line < end; is_first = false) {
        size_t count = (size_t)((const uint8_t *)memchr(line, '\n', (size_t)(end - line)) - line);
        if (is_first) {
            if (keyset_open(line, count, &session) != KEYSET_ANSWERED)
                exit(EXIT_FAILURE);
        } else {
            double began = now();
            accepted += make(&session, line, count, accepts);
            double passed = now() - began;
            taken[lines] = taken[lines] == 0 || passed < taken[lines] ? passed : taken[lines];
            lines++;
        }
        line += count + 1;
    }
    keyset_close(&session);
}

static double mean(size_t begin, size_t end)
{
    double sum = 0;
    for (size_t i = begin; i < end; i++)
        sum += taken[i];
    return sum / (double)(end - begin);
}

int main(int count, char **words)
{
    bool accepts = count > 1 && strcmp(words[1], "accept") == 0;
    double slowest = 0;
    length = fread(script, 1, sizeof script, stdin);
    for (int round = 0; round < ROUNDS; round++)
        play(accepts);
    size_t share = lines / 10 < SHARE ? lines / 10 : SHARE;
    for (size_t i = 0; i < lines; i++)
        slowest = taken[i] > slowest ? taken[i] : slowest;
    printf("%zu %.0f %.0f %.0f\n", accepted, mean(0, share), mean(lines - share, lines), slowest);
    return EXIT_SUCCESS;
}
