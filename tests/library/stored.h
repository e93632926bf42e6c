/* The stored scripts with their answers, as the tests at the border of the library read them. */

#ifndef STORED_H
#define STORED_H

#include "border.h"

struct stored {
    const char *name, *script, *answer;
    size_t script_length, answer_length;
};

static struct stored *stored;
static size_t scripts;

static void read_stored(const char *path)
{
    static char text[1 << 22];
    FILE *file = fopen(path, "r");
    expect(file != NULL, "the file of stored scripts", path);
    text[fread(text, 1, sizeof text - 1, file)] = '\0';
    fclose(file);
    char *at = strstr(text, "\n== ");
    while (at != NULL) {
        char *name = at + strlen("\n== "), *next = strstr(name, "\n== ");
        if (next != NULL)
            *next = '\0';
        char *script = strchr(name, '\n') + 1, *end = strstr(script, "-- answers\n");
        expect(end != NULL, "a script with answers", path);
        script[-1] = *end = '\0';
        char *answer = end + strlen("-- answers\n");
        stored = realloc(stored, (scripts + 1) * sizeof *stored);
        expect(stored != NULL, "memory for the scripts", path);
        stored[scripts++] = (struct stored){name, script, answer, strlen(script), strlen(answer)};
        at = next;
    }
}

#endif
