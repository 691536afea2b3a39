/* Reads lines of any length into a buffer of fixed size. Layer 0. */
#include "lines.h"

static void keep(struct message *message, int byte)
{
    if (message->kept < sizeof message->bytes)
        message->bytes[message->kept++] = byte == '|' ? SOH : (uint8_t)byte;
    message->length++;
}

bool next_line(FILE *input, struct message *message)
{
    int byte;
    message->kept = message->length = 0;
    while ((byte = getc(input)) != EOF && byte != '\n')
        keep(message, byte);
    return byte == '\n' || message->length > 0;
}
