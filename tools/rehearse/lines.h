/* The lines of the input as messages. Layer 0. */
#ifndef LINES_H
#define LINES_H

#include <stdbool.h>
#include <stddef.h>
#include <stdint.h>
#include <stdio.h>

#define SOH 1

enum { LONGEST_MESSAGE = 1024 };

/* A message, SOH in place of each |. Of a line longer than any message one byte too many is kept, which is enough to see that
 * it is no message. */
struct message {
    uint8_t bytes[LONGEST_MESSAGE + 1];
    size_t kept;
    size_t length; /* of the whole line */
};

/* The next line; false where there is none. As the program `book` does it, an empty line is a line, and a last line needs no LF. */
bool next_line(FILE *input, struct message *message);

#endif
