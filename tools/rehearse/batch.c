/* Loads a file of messages, as many at a time as the reports of one area have room for. Layer 5. */
#include "batch.h"

#include <errno.h>
#include <inttypes.h>
#include <stdio.h>
#include <stdlib.h>

#include "expect.h"
#include "kamurjesh.h"
#include "market.h"
#include "minimum.h"

/* Bytes that grow. */
struct buffer {
    uint8_t *bytes;
    size_t length, room;
};

static bool add(struct buffer *buffer, uint8_t byte)
{
    if (buffer->length == buffer->room) {
        size_t room = buffer->room == 0 ? 65536 : 2 * buffer->room;
        uint8_t *bytes = realloc(buffer->bytes, room);
        if (bytes == NULL)
            return false;
        buffer->bytes = bytes;
        buffer->room = room;
    }
    buffer->bytes[buffer->length++] = byte;
    return true;
}

/* The whole file; false where it cannot be read or held, and errno says why. */
static bool read_batch(const char *file, struct buffer *buffer)
{
    FILE *from = fopen(file, "rb");
    if (from == NULL)
        return false;
    bool good = true;
    int byte;
    while (good && (byte = getc(from)) != EOF)
        if (byte != '\n')
            good = add(buffer, byte == '|' ? SOH : (uint8_t)byte);
    good = good && !ferror(from);
    int why = errno;
    fclose(from);
    errno = why;
    return good;
}

static void print_end(uint64_t number, uint64_t place, uint64_t finished, size_t length)
{
    printf("batch: %" PRIu64 " message%s finished", finished, finished == 1 ? "" : "s");
    if (number != KAMURJESH_TAKEN)
        printf("; stopped at byte %" PRIu64 " of %zu ", place + 1, length);
    switch (number) {
    case KAMURJESH_TAKEN: break;
    case KAMURJESH_NUMBERS_SPENT: printf("(4): the report numbers are used up"); break;
    case KAMURJESH_GARBLED:
        printf("(5): no length can be read there, by 8=FIX.4.2 and a field 9 of 1 to 4 digits, or there are too few bytes for it");
        break;
    default: expect_taken("Load", number);
    }
    putchar('\n');
}

bool take_batch(const char *file)
{
    static const uint8_t none[1];
    struct buffer buffer = {NULL, 0, 0};
    uint64_t number, place = 0, finished = 0;
    bool good = read_batch(file, &buffer);
    forget_noted();
    if (good) {
        do {
            struct part rest = {none, 0};
            if (place < buffer.length)
                rest = (struct part){buffer.bytes + place, buffer.length - (size_t)place};
            number = load_some(rest, &place, &finished);
        } while (number == KAMURJESH_NO_ROOM);
        print_end(number, place, finished, buffer.length);
    }
    int why = errno;
    free(buffer.bytes);
    errno = why;
    return good;
}
