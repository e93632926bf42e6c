/* reader.h: a second reader of scripts, written only from docs/REFERENCE.md. */
#ifndef READER_H
#define READER_H

#include <stddef.h>

/* The first malformed line of a text, counted from 1; 0 if the text is a script. */
size_t first_malformed_line(const char *text, size_t length);

#endif
