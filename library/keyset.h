/* keyset.h: a proved DNSSEC key set for C, and for languages that call C.

   There are two ways to use it. `keyset_answer` takes a script and writes its answers; it keeps
   nothing, and the script is the whole state. So does `keyset_next`, which says what a policy wants
   to be done next. A session keeps a zone between two calls: a line goes in, and its answer comes
   out. docs/CALLERS.md is the page for callers, and docs/REFERENCE.md has
   the form of scripts and of answers.

   Who owns what: all buffers are the caller's. The library reads and writes them while it is
   called, and keeps no pointer. What it allocates it frees before it returns, except what a session
   keeps until `keyset_close`.

   Where it runs: on Linux, with an x86-64 or a 64-bit ARM processor. It links against the C
   library, and nothing else: `cc caller.c -lkeyset`.

   Threads: the library has no data of its own, takes no lock, opens no file and reads no clock. So
   threads may call it side by side, each with sessions and an `out` of its own. A session may go
   from one thread to another. Functions that take a `const struct keyset_session *` only read it:
   threads may ask one session side by side as long as none makes a call or takes a note on it,
   opens or closes it, or copies into it. That is tested; the proofs speak of one call at a time.

   Signals and forks: it calls malloc, realloc and free. So it is not for signal handlers, nor for
   the forked child of a process with threads. A forked child has a copy of each session. Parent and
   child then go on by themselves, so only one of them may keep the lines.

   Numbers of calls: the number of a call is that of its line in the kept script, less one. The
   zone's line has none, and the line after it is call 1. `keyset_accept` leaves a refused call out
   of the session. So keep the lines that it accepts, and only these: then session, script and notes
   count alike. `keyset_call` counts a refused line too, as it stands in a script.

   The contract of each function is proved, in crates/keyset_c/src/lib.rt: the clauses whose names
   are in parentheses below. They take for granted what C asks of every caller: each pointer has as
   many bytes as its length says, the pieces don't overlap, and nobody else writes to them during
   the call. A pointer may be NULL if its length is 0; that is tested, and not proved. */

#ifndef KEYSET_H
#define KEYSET_H

#include <stdbool.h>
#include <stddef.h>
#include <stdint.h>

#ifdef __cplusplus
extern "C" {
#endif

/* The version of the interface that this header was written for: see keyset_version. */
#define KEYSET_VERSION 3

/* The release that this header is part of. A release may leave the interface as it is; one that
   changes a function, a struct or a status in a way that breaks callers has the next
   KEYSET_VERSION. The shared object has that number in its name: libkeyset.so.3. */
#define KEYSET_RELEASE "1.1.0"

/* The statuses. 0, 1 and 3 are those that the program keyset ends with. */
enum {
    KEYSET_ANSWERED = 0,      /* the answer was written; of a session: it was opened */
    KEYSET_MALFORMED = 1,     /* a line doesn't have the form of a script's line */
    KEYSET_OUT_OF_MEMORY = 3, /* the library got no memory */
    KEYSET_SHORT = 4,         /* the answer is longer than `out` */
    KEYSET_CLOSED = 5,        /* the session is closed */
    KEYSET_IS_OPEN = 6,       /* the session is open */
    KEYSET_NO_SUCH_CALL = 7,  /* a line of notes has the sets of a call that wasn't made yet */
    KEYSET_SEEN_EARLY = 8,    /* a line of notes: seen everywhere before it was published */
    KEYSET_MOMENT_FALLS = 9,  /* a line of notes: its moment lies before the last one */
    KEYSET_REFUSED = 10,      /* the key set refuses the call */
    /* a line of notes: published before the moment of its call, or of a call before that */
    KEYSET_PUBLISHED_EARLY = 11,
    KEYSET_LOST = 12,         /* the library got no memory in a call, and has closed the session */
    KEYSET_NOT_SAID = 13,     /* keyset_next: a text is refused, and the answer is why */
    KEYSET_NO_NOTES = 14      /* the session forgoes notes */
};

struct keyset_answered {
    uint32_t status;
    size_t length; /* answered, not said: the bytes written; short: the bytes needed; else 0 */
    size_t line;   /* malformed script: the first malformed line, counted from 1; else 0 */
};

/* Answers `script` into the front of `out`, with the bytes that the program keyset writes.

   answered       `out` begins with `length` bytes, which are the output of a run of the script's
                  calls (answered, fits); after them it is as it was (rest). If the list of calls
                  is plain, the chain of trust held all the time (safe), and the last line says so
                  (chain)
   malformed      `line` is the first malformed line (malformed); a well-formed script never gets
                  this status (well_formed)
   short          an answer has `length` bytes, and `out` has fewer (short, needed)
   out of memory  asking again may help

   Unless it was answered, `out` is as it was (silent). There is no other status (status). If a
   status doesn't use a member, that is 0 (no_length, no_line). */
struct keyset_answered keyset_answer(const uint8_t *script, size_t script_length,
                                     uint8_t *out, size_t out_length);

/* A session: a zone with its key set, what is published, and what the verdict needs. One that is
   all zeros is closed: `struct keyset_session session = {0};`. Only the library uses its members.

   The proofs take for granted that a session is used as one value: it may be moved, but a copy of
   its bytes is no second session (`keyset_copy` makes one); it is all zeros before it is opened;
   nobody else writes to it; and one call at a time uses it. If a session is closed, each call says
   so, and leaves it closed.

   Its memory follows the keys and what caches may hold. Only what it keeps for notes grows with its
   calls, by 16 bytes each: `keyset_forgo_notes` gives that up. */
struct keyset_session {
    void *place;
    bool is_open;
};

/* Opens a session for the zone that the line names, as the first line of a script does. A line has
   no line feed.

   answered       it is open, and has made no call (opened)
   malformed      the line names no zone (malformed, unnamed)
   is open        it was open (is_open)
   out of memory  asking again may help: the line names a zone (memory)

   Unless it is answered, the session is as it was (unchanged). */
uint32_t keyset_open(const uint8_t *line, size_t line_length, struct keyset_session *session);

/* Makes the call of the line if the key set accepts it. `keyset_told` then writes the answer, of a
   refused call too. So no buffer can be too short.

   answered       the call is made (accepted), and `keyset_calls` is its number
   refused        the call isn't made, and has no number (refused)
   malformed      the line doesn't have the form of a script's line (malformed)
   out of memory  asking again may help: the line has that form (memory)
   closed         the session is closed (closed)

   Unless it was answered, the calls and the notes are as they were (refused, unchanged). A session
   is never lost. It takes as long as `keyset_copy`, and the call. */
uint32_t keyset_accept(struct keyset_session *session, const uint8_t *line, size_t line_length);

/* Makes the call of the line, and answers it as in a script of all lines so far. A refused call is
   answered too, and its line is one of them. It is for the lines of a script as they stand. A call
   costs no more if many calls came before it.

   answered       `out` begins with the answer and its line feed (answered, fits, rest)
   malformed      no call is made, and the session is as it was (malformed, kept)
   short          the call is made, and its answer has `length` bytes (short, needed). Don't make it
                  again: `keyset_told` writes its answer
   out of memory  no call is made, and the session is as it was (memory, kept): asking again may
                  help
   lost           memory ran out after a part of the call was made, so the session is closed (lost):
                  open it again with its lines
   closed         it was closed (closed)

   Unless it was answered, `out` is as it was (silent). `line` is 0 (no_line), and so is `length`
   unless it was answered or short (no_length). */
struct keyset_answered keyset_call(struct keyset_session *session, const uint8_t *line,
                                   size_t line_length, uint8_t *out, size_t out_length);

/* How many calls the session has made: the number of the last one (made). 0 of a closed session. */
size_t keyset_calls(const struct keyset_session *session);

/* These write into the front of `out`, and leave the session as it was (same), whatever the status:
   answered (told, handed), short (needed, handed), out of memory, closed (closed). Unless it was
   answered, `out` is as it was. `line` is 0, and so is `length` unless it was answered or short
   (handed). There is no other status (status).

   keyset_told     the answer to the last line again; before the first one nothing. It is never out
                   of memory
   keyset_closing  the last two lines of the answers to all lines so far: the published sets, and
                   the verdict on the record
   keyset_status   the status of the zone: one line of JSON, by docs/status.schema.json */
struct keyset_answered keyset_told(const struct keyset_session *session, uint8_t *out,
                                   size_t out_length);
struct keyset_answered keyset_closing(const struct keyset_session *session, uint8_t *out,
                                      size_t out_length);
struct keyset_answered keyset_status(const struct keyset_session *session, uint8_t *out,
                                     size_t out_length);

/* Takes the next line of the zone's notes, after the calls that the session has made so far: what
   is published, with which TTL, and when all servers gave it. docs/REFERENCE.md has the form of the
   lines. Notes stay when the session makes more calls (notes_outlast_calls).

   answered       the line is taken (noted)
   malformed      it is no line of notes; the first one begins with `before`
   no such call, published early, seen early, moment falls
                  its fact can't follow the calls, or those before it
   no notes       the session forgoes notes (refused)
   out of memory  asking again may help: nothing else stands against the line (refused)
   closed         the session is closed (closed)

   Unless it is answered, the session and its notes are as they were (unchanged), and the status
   says why (refused). */
uint32_t keyset_note(struct keyset_session *session, const uint8_t *line, size_t line_length);

/* Writes the reports that the rolls wait for, as they would be made at this second since 1970: a
   line for each, in the form that docs/REFERENCE.md has. They are those that `keyset notes` answers
   for the lines of the session and of its notes (told). It is malformed if and only if the
   session has no notes, or forgoes them (no_notes). Else it is as the three functions above. */
struct keyset_answered keyset_due(const struct keyset_session *session, uint64_t seconds,
                                  uint8_t *out, size_t out_length);

/* Gives up the notes of a session, and what it keeps for them: 16 bytes for each call. From then on
   it keeps neither, so that it is as small after many calls as after few. No later line is taken,
   and no question for reports is answered. Calls and answers stay (forgone). It takes no memory.

   answered       it forgoes notes now, also if it did before (forgone)
   closed         the session is closed, and stays so (closed, unchanged) */
uint32_t keyset_forgo_notes(struct keyset_session *session);

/* Writes what a policy says to do next at this second since 1970, after the calls of a script and
   by the notes beside it: one line without a line feed. docs/POLICY.md has the form of a policy and
   of the line. It keeps nothing, and is for zones that roll by themselves: whatever it says, the
   calls are accepted, and resolvers find a chain of trust (crates/dnssec_policy). An add of a key
   may come between.

   answered       `out` begins with the line (said)
   not said       the policy, the script or the notes are refused, or a lifetime is shorter than its
                  roll takes: `out` begins with why, as `keyset next` says it (why)
   short          the line, or why there is none, has `length` bytes, and `out` has fewer (needed)
   out of memory  asking again may help

   After what it writes, and unless it writes, `out` is as it was (handed). `line` is 0. There is no
   other status (status). */
struct keyset_answered keyset_next(const uint8_t *policy, size_t policy_length,
                                   const uint8_t *script, size_t script_length,
                                   const uint8_t *notes, size_t notes_length, uint64_t seconds,
                                   uint8_t *out, size_t out_length);

/* Opens another session after the same calls, with the same last answer and the same notes, or none
   if the first one forgoes them (copied). So you can try a call on it. The first session stays as
   it is (same). Each may go to a thread of its own.

   answered       the other session is open
   out of memory  asking again may help
   closed         the first session is closed (closed)
   is open        the other session was open (is_open)

   Unless it is answered, the other session is as it was (unchanged). */
uint32_t keyset_copy(const struct keyset_session *session, struct keyset_session *copy);

/* Closes a session, and frees what it keeps. A closed one stays closed. */
void keyset_close(struct keyset_session *session);

/* The version of the interface of the linked library: of its functions, structs and statuses. It is
   KEYSET_VERSION if header and library belong together. */
uint32_t keyset_version(void);

/* KEYSET_TEXT_ROOM bytes always suffice for these two (room). They take no memory, and write no
   line feed (told).

   keyset_status_text   what a status means, as `out of memory`; of another number `no such status`
   keyset_version_text  the release of the linked library, as `1.1.0` */
#define KEYSET_TEXT_ROOM 64
struct keyset_answered keyset_status_text(uint32_t status, uint8_t *out, size_t out_length);
struct keyset_answered keyset_version_text(uint8_t *out, size_t out_length);

#ifdef __cplusplus
}
#endif

#endif
