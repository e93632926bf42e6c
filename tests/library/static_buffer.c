/* A library that keeps a buffer between its calls. The tests with threads have to find this fault.
   The linker has keyset_answer come here, by -Wl,--wrap=keyset_answer. */

#include <keyset.h>

#include <sched.h>
#include <string.h>

struct keyset_answered __real_keyset_answer(const uint8_t *script, size_t script_length,
                                            uint8_t *out, size_t out_length);
struct keyset_answered __wrap_keyset_answer(const uint8_t *script, size_t script_length,
                                            uint8_t *out, size_t out_length);

struct keyset_answered __wrap_keyset_answer(const uint8_t *script, size_t script_length,
                                            uint8_t *out, size_t out_length)
{
    static uint8_t kept[1 << 16];
    struct keyset_answered outcome =
        __real_keyset_answer(script, script_length, kept, out_length);
    sched_yield();
    if (outcome.status == KEYSET_ANSWERED)
        memcpy(out, kept, outcome.length);
    return outcome;
}
