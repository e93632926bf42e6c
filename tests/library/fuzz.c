/* libFuzzer looks here for a text on which the library and a second reader disagree. The library
   is linked as it was compiled. Two things guide the fuzzer: the coverage of the reader, and which
   calls got which answers. The file `answered` gets scripts with their answers, each after its two
   lengths: those with an answer that no earlier one had, and every 8th. */

#include "reader.h"

#include <keyset.h>

#include <stdbool.h>
#include <stdio.h>
#include <stdlib.h>
#include <string.h>

#define EVERY 8
#define PLACES (1 << 12)
#define ROOM (1 << 20)

/* Each has a place for each call with its answer. `seen` is for one text: libFuzzer looks at it and
   clears it. `known` is for all texts so far. */
__attribute__((section("__libfuzzer_extra_counters"))) static uint8_t seen[PLACES];
static bool known[PLACES];

int LLVMFuzzerTestOneInput(const uint8_t *text, size_t length);

/* Adds a text up to the first of these bytes to a hash. */
static uint32_t mixed(uint32_t sum, const char *text, const char *end, const char *stops)
{
    for (; text < end && strchr(stops, *text) == NULL; text++)
        sum = (sum ^ (uint8_t)*text) * 16777619u;
    return sum;
}

/* The word of a call, and the roll that it is on. */
static uint32_t call_of(const char *line, const char *end)
{
    static const char *const ON_ROLL[] = {"start ", "report", "wait", "done ", "abort "};
    uint32_t sum = mixed(2166136261u, line, end, " ");
    for (size_t i = 0; i < sizeof ON_ROLL / sizeof *ON_ROLL; i++)
        if (strncmp(line, ON_ROLL[i], strlen(ON_ROLL[i])) == 0)
            sum = mixed(sum, strchr(line, ' ') + 1, end, " \n");
    return sum;
}

/* Whether some call has an answer here that no such call had before. How long a wait still lasts
   makes no difference. */
static bool is_new(const char *script, const char *end, const char *answer)
{
    bool found = false;
    const char *line = memchr(script, '\n', (size_t)(end - script));
    while (line != NULL && ++line < end) {
        uint32_t at = mixed(call_of(line, end), answer, answer + strlen(answer), "\n0123456789");
        found = found || !known[at % PLACES];
        seen[at % PLACES] = known[at % PLACES] = true;
        line = memchr(line, '\n', (size_t)(end - line));
        answer = strchr(answer, '\n') + 1;
    }
    return found;
}

static void keep(const uint8_t *text, size_t length, const uint8_t *answer, size_t answer_length)
{
    static FILE *file;
    if (file == NULL && (file = fopen("answered", "wb")) == NULL)
        abort();
    fprintf(file, "%zu %zu\n", length, answer_length);
    fwrite(text, 1, length, file);
    fwrite(answer, 1, answer_length, file);
    fflush(file);
}

int LLVMFuzzerTestOneInput(const uint8_t *text, size_t length)
{
    static uint8_t out[ROOM];
    static char script[ROOM];
    static size_t scripts;
    size_t line = first_malformed_line((const char *)text, length);
    struct keyset_answered outcome = keyset_answer(text, length, out, sizeof out - 1);
    if (outcome.line != line || outcome.status != (line > 0 ? KEYSET_MALFORMED : KEYSET_ANSWERED))
        abort();
    if (line > 0)
        return 0;
    /* Both end where a text does. */
    memcpy(script, text, length);
    script[length] = '\0';
    out[outcome.length] = '\0';
    if (is_new(script, script + length, (const char *)out) || scripts++ % EVERY == 0)
        keep(text, length, out, outcome.length);
    return 0;
}
