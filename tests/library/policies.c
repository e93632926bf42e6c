/* Tests keyset_next at the library's border: its answers and its refusals, each in a buffer of each
   length (only every STEP lengths, if a checker of memory makes it slow), and after each request
   for memory has failed in turn.

       policies [STEP] */

#define _GNU_SOURCE
#include "border.h"

#include <keyset.h>

#define ROOM 256
#define POLICY "policy 13 ksk-roll zsk-roll\n"
#define ZONE "zone example.com\n"
#define BEFORE "before 60 60 60\n"
#define KEYS "add-ksk K1 - 13 1 0 yes\nadd-zsk Z1 - 13 2 0 yes\n"

/* What is handed in, with the status and the text that answer it, and how many requests for memory
   may fail without harm: those of lists that are collected, for a list asks for the room that its
   source promises, and then for that of one element; and those of copies by which a session of few
   keys lets go of room, after each add, for it keeps its room if there is no copy. */
static const struct row {
    const char *policy, *script, *notes;
    uint64_t seconds;
    uint32_t status;
    const char *text;
    size_t lists, copies;
} ROWS[] = {
    {POLICY, ZONE, BEFORE, 100, KEYSET_ANSWERED, "key ksk 13", 2, 0},
    {POLICY, ZONE KEYS, BEFORE, UINT64_MAX, KEYSET_ANSWERED,
     "start algorithm-roll - K1,Z1 18446744073709551615", 3, 18},
    {POLICY, ZONE KEYS "start algorithm-roll - K1,Z1 100\n", BEFORE, 101, KEYSET_ANSWERED,
     "publish dnskey", 3, 18},
    {"", ZONE, BEFORE, 100, KEYSET_NOT_SAID, "policy: line 1: malformed", 1, 0},
    {POLICY "zsk-once 1\nzsk-once 2\n", ZONE, BEFORE, 100, KEYSET_NOT_SAID,
     "policy: line 3: said twice", 1, 0},
    {POLICY "zsk-lifetime 121\n", ZONE, BEFORE, 100, KEYSET_NOT_SAID,
     "policy: a lifetime of 121 seconds is shorter than a zsk-roll takes: 122", 2, 0},
    {POLICY, "", BEFORE, 100, KEYSET_NOT_SAID, "script: line 1: malformed", 1, 0},
    {POLICY, ZONE, "", 100, KEYSET_NOT_SAID, "notes: line 1: malformed", 1, 0},
    {POLICY, ZONE, BEFORE "published ds 9 5 9\n", 100, KEYSET_NOT_SAID,
     "notes: line 2: no such call yet", 1, 0},
};

static const uint8_t *bytes(const char *text)
{
    return *text != '\0' ? (const uint8_t *)text : NULL;
}

static struct keyset_answered next(const struct row *row, uint8_t *out, size_t room)
{
    requests.is_called = true;
    struct keyset_answered outcome = keyset_next(
        bytes(row->policy), strlen(row->policy), bytes(row->script), strlen(row->script),
        bytes(row->notes), strlen(row->notes), row->seconds, room > 0 ? out : NULL, room);
    requests.is_called = false;
    return outcome;
}

static void expect_next(const struct row *row, size_t room)
{
    size_t needed = strlen(row->text);
    uint8_t *out = filled(room);
    struct keyset_answered outcome = next(row, out, room);
    if (room < needed) {
        expect_too_short(outcome, needed, out, room, row->text);
    } else {
        expect(is_answer(outcome, row->status, needed), "the status", row->text);
        expect(memcmp(out, row->text, needed) == 0, "the text", row->text);
        expect(is_filled(out + needed, room - needed), "what comes after it", row->text);
    }
    free(out);
}

/* Each request fails in turn. The answer is right all the same only if the request was made again
   at once, or was for a copy that is dropped: as often as the row says. After any other request
   there is no memory. Gives how often that was. */
static size_t fail_next(const struct row *row)
{
    uint8_t *out = filled(ROOM);
    size_t failed = 0, lists = 0, copies = 0, needed = strlen(row->text);
    requests.failing = requests.made = 0;
    next(row, out, ROOM);
    size_t whole = requests.made;
    for (requests.failing = 1; requests.failing <= whole; requests.failing++) {
        requests.made = 0;
        memset(out, FILLER, ROOM);
        struct keyset_answered outcome = next(row, out, ROOM);
        expect(requests.held == 0, "all is freed", row->text);
        if (outcome.status == KEYSET_OUT_OF_MEMORY) {
            expect(is_answer(outcome, KEYSET_OUT_OF_MEMORY, 0), "out of memory", row->text);
            expect(is_filled(out, ROOM), "nothing is written", row->text);
            failed++;
        } else {
            expect(is_answer(outcome, row->status, needed), "answered", row->text);
            expect(memcmp(out, row->text, needed) == 0, "the text", row->text);
            bool is_list = requests.is_asked_again && requests.made == whole + 1;
            lists += is_list;
            copies += !is_list;
        }
    }
    requests.failing = 0;
    free(out);
    expect(lists == row->lists, "requests of lists", row->text);
    expect(copies == row->copies, "requests of copies", row->text);
    return failed;
}

int main(int count, char **arguments)
{
    size_t step = count > 1 ? strtoul(arguments[1], NULL, 10) : 1;
    size_t failed = 0;
    size_t rows = sizeof ROWS / sizeof *ROWS;
    for (size_t i = 0; i < rows; i++) {
        for (size_t room = 0; room < ROOM; room += step)
            expect_next(&ROWS[i], room);
        failed += fail_next(&ROWS[i]);
    }
    printf("%zu rows of what a policy says, in buffers of each length; %zu requests for memory "
           "failed\n", rows, failed);
    return EXIT_SUCCESS;
}
