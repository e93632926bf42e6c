#include "reader.h"

#include <stdbool.h>
#include <stdint.h>
#include <string.h>

#define LONGEST_LABEL 63
#define LONGEST_NAME 255
#define MOST_DIGITS 20

struct text {
    const char *at;
    size_t length;
};

static struct text slice(struct text text, size_t from, size_t to)
{
    return (struct text){text.at + from, to - from};
}

/* The first place of the byte in the text, or the length of the text. */
static size_t find(struct text text, char byte)
{
    const char *found = memchr(text.at, byte, text.length);
    return found == NULL ? text.length : (size_t)(found - text.at);
}

static bool is(struct text text, const char *word)
{
    return text.length == strlen(word) && memcmp(text.at, word, text.length) == 0;
}

static bool is_one_of(struct text text, const char *const *words)
{
    for (; *words != NULL; words++)
        if (is(text, *words))
            return true;
    return false;
}

static bool is_visible(char byte)
{
    return byte >= 0x21 && byte <= 0x7E;
}

static bool is_digit(char byte)
{
    return byte >= '0' && byte <= '9';
}

static bool is_number(struct text text, uint64_t most)
{
    unsigned __int128 number = 0;
    for (size_t i = 0; i < text.length; i++) {
        if (!is_digit(text.at[i]) || i == MOST_DIGITS)
            return false;
        number = 10 * number + (unsigned)(text.at[i] - '0');
    }
    return text.length > 0 && number <= most;
}

static bool is_reference(struct text text)
{
    for (size_t i = 0; i < text.length; i++)
        if (!is_visible(text.at[i]) || text.at[i] == ',')
            return false;
    return text.length > 0 && !is(text, "-");
}

static bool is_list(struct text text)
{
    if (is(text, "-"))
        return true;
    for (;;) {
        size_t end = find(text, ',');
        if (!is_reference(slice(text, 0, end)))
            return false;
        if (end == text.length)
            return true;
        text = slice(text, end + 1, text.length);
    }
}

static const char *const ROLLS[] = {
    "ksk-roll", "ksk-double-ds-roll", "zsk-roll", "zsk-double-signature-roll",
    "csk-roll", "algorithm-roll",     NULL,
};

static const char *const ALGORITHMS[] = {
    "RSASHA256", "RSASHA512", "ECDSAP256SHA256", "ECDSAP384SHA384", "ED25519", "ED448", NULL,
};

/* The words, and a letter for each of their fields. */
static const struct form {
    const char *word, *fields;
} FORMS[] = {
    {"add-ksk", "RPAGTY"},      {"add-zsk", "RPAGTY"},   {"add-csk", "RPAGTY"},
    {"add-public", "RAGTY"},    {"start", "OLLT"},       {"report1", "OST"},
    {"wait1", "OT"},            {"report2", "OST"},      {"wait2", "OT"},
    {"done", "O"},              {"abort", "O"},          {"delete", "R"},
    {"set-present", "RYT"},     {"set-signer", "RY"},    {"set-at-parent", "RY"},
    {"set-decoupled", "RY"},    {"set-stale", "R"},      {"set-visible", "RT"},
    {"set-ds-visible", "RT"},   {"set-rrsig-visible", "RT"},
};

static bool is_field(struct text text, char letter)
{
    switch (letter) {
    case 'R':
        return is_reference(text);
    case 'P':
        return is(text, "-") || is_reference(text);
    case 'L':
        return is_list(text);
    case 'A':
        return is_number(text, UINT8_MAX) || is_one_of(text, ALGORITHMS);
    case 'G':
        return is_number(text, UINT16_MAX);
    case 'S':
        return is_number(text, UINT32_MAX);
    case 'T':
        return is_number(text, UINT64_MAX);
    case 'Y':
        return is(text, "yes") || is(text, "no");
    default:
        return is_one_of(text, ROLLS);
    }
}

static bool has_form(struct text line, const struct form *form)
{
    size_t end = find(line, ' ');
    if (!is(slice(line, 0, end), form->word))
        return false;
    for (const char *letter = form->fields; *letter != '\0'; letter++) {
        if (end == line.length)
            return false;
        line = slice(line, end + 1, line.length);
        end = find(line, ' ');
        if (!is_field(slice(line, 0, end), *letter))
            return false;
    }
    return end == line.length;
}

static bool is_call(struct text line)
{
    for (size_t i = 0; i < sizeof FORMS / sizeof *FORMS; i++)
        if (has_form(line, &FORMS[i]))
            return true;
    return false;
}

/* How many bytes of the text spell the first byte of a label: 0 if they spell none. */
static size_t spelled(struct text text)
{
    if (text.at[0] != '\\')
        return is_visible(text.at[0]) ? 1 : 0;
    if (text.length > 3 && is_digit(text.at[1]))
        return is_number(slice(text, 1, 4), UINT8_MAX) ? 4 : 0;
    if (text.length > 1 && !is_digit(text.at[1]))
        return text.at[1] == ' ' || is_visible(text.at[1]) ? 2 : 0;
    return 0;
}

static bool is_name(struct text text)
{
    size_t wire = 1, label = 0;
    if (is(text, "."))
        return true;
    while (text.length > 0) {
        size_t bytes = 1;
        if (text.at[0] == '.') {
            if (label == 0)
                return false;
            label = 0;
        } else {
            bytes = spelled(text);
            wire += label == 0 ? 2 : 1;
            label++;
            if (bytes == 0 || label > LONGEST_LABEL || wire > LONGEST_NAME)
                return false;
        }
        text = slice(text, bytes, text.length);
    }
    return wire > 1;
}

static bool is_zone(struct text line)
{
    static const char WORD[] = "zone ";
    size_t word = strlen(WORD);
    return line.length > word && is(slice(line, 0, word), WORD)
           && is_name(slice(line, word, line.length));
}

size_t first_malformed_line(const char *text, size_t length)
{
    struct text left = {text, length};
    for (size_t number = 1; number == 1 || left.length > 0; number++) {
        size_t end = find(left, '\n');
        struct text line = slice(left, 0, end);
        if (number == 1 ? !is_zone(line) : !is_call(line))
            return number;
        left = slice(left, end < left.length ? end + 1 : end, left.length);
    }
    return 0;
}
