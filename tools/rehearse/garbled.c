/* Looks for what makes a message garbled, one reason after the other. The market has answered already; this only finds words.
 * Layer 1. */
#include "garbled.h"

#include <ctype.h>
#include <stdio.h>
#include <string.h>

struct field {
    unsigned tag;
    size_t start, value, end; /* of the field, of its value, and the place of its SOH */
};

struct walk {
    const uint8_t *bytes;
    size_t length;
    struct field fields[LONGEST_MESSAGE];
    size_t count;
};

enum { HEADER = 7 };
static const unsigned header[HEADER] = {8, 9, 35, 34, 49, 52, 56};
enum { VERSION, BODY_LENGTH, MSG_TYPE, SEQ_NUM, SENDER, SENDING_TIME, TARGET };

static size_t value_length(const struct field *field)
{
    return field->end - field->value;
}

static bool all_digits(const uint8_t *bytes, size_t length)
{
    for (size_t i = 0; i < length; i++)
        if (!isdigit(bytes[i]))
            return false;
    return true;
}

/* For at most nine digits. */
static unsigned long number(const uint8_t *digits, size_t length)
{
    unsigned long n = 0;
    for (size_t i = 0; i < length; i++)
        n = 10 * n + (unsigned long)(digits[i] - '0');
    return n;
}

static bool is_number(const struct walk *walk, const struct field *field, size_t most)
{
    size_t n = value_length(field);
    return n >= 1 && n <= most && all_digits(walk->bytes + field->value, n);
}

/* ---- the reasons; each prints itself if it is there */

static bool bad_byte(struct walk *walk)
{
    size_t i = 0;
    while (i < walk->length && (walk->bytes[i] == SOH || (walk->bytes[i] >= 0x20 && walk->bytes[i] <= 0x7e)))
        i++;
    if (i == walk->length)
        return false;
    if (walk->bytes[i] == '\r' && i + 1 == walk->length)
        printf("the line ends with CR (0D hex), and lines end with LF alone");
    else
        printf("byte %zu is %02X hex, and a value has 20 to 7E hex only", i + 1, walk->bytes[i]);
    return true;
}

static bool no_last_soh(struct walk *walk)
{
    if (walk->bytes[walk->length - 1] == SOH)
        return false;
    printf("the last byte is not SOH (| in a line)");
    return true;
}

/* The field that starts at a place; false if what stands there is none. Behind it there is an SOH. */
static bool take_field(const struct walk *walk, size_t start, struct field *field)
{
    size_t at = start;
    while (at - start < 5 && isdigit(walk->bytes[at]))
        at++;
    if (at == start || at - start > 4 || walk->bytes[start] == '0' || walk->bytes[at] != '=')
        return false;
    const uint8_t *end = memchr(walk->bytes + at, SOH, walk->length - at);
    *field = (struct field){(unsigned)number(walk->bytes + start, at - start), start, at + 1, (size_t)(end - walk->bytes)};
    return true;
}

static bool no_field(struct walk *walk)
{
    for (size_t at = 0; at < walk->length; at = walk->fields[walk->count - 1].end + 1) {
        if (!take_field(walk, at, &walk->fields[walk->count])) {
            printf("no field at byte %zu: a tag of 1 to 4 digits, the first not 0, and = are asked for", at + 1);
            return true;
        }
        walk->count++;
    }
    return false;
}

static bool bad_order(struct walk *walk)
{
    for (size_t i = 0; i < HEADER; i++)
        if (i >= walk->count || walk->fields[i].tag != header[i]) {
            printf("field %zu is not tag %u: a message begins with 8, 9, 35, 34, 49, 52, 56", i + 1, header[i]);
            return true;
        }
    if (walk->fields[walk->count - 1].tag == 10)
        return false;
    printf("the last field is tag %u, not tag 10", walk->fields[walk->count - 1].tag);
    return true;
}

static bool repeated_tag(struct walk *walk)
{
    for (size_t i = 0; i < walk->count; i++)
        for (size_t j = 0; j < i; j++)
            if (walk->fields[i].tag == walk->fields[j].tag) {
                printf("tag %u is repeated", walk->fields[i].tag);
                return true;
            }
    return false;
}

static bool bad_header_value(struct walk *walk)
{
    const struct field *f = walk->fields;
    const char *what = NULL;
    if (value_length(&f[VERSION]) != 7 || memcmp(walk->bytes + f[VERSION].value, "FIX.4.2", 7) != 0)
        what = "tag 8 is not FIX.4.2";
    else if (!is_number(walk, &f[BODY_LENGTH], 4))
        what = "tag 9 is not 1 to 4 digits";
    else if (value_length(&f[MSG_TYPE]) < 1 || value_length(&f[MSG_TYPE]) > 2)
        what = "tag 35 is not 1 or 2 characters";
    else if (!is_number(walk, &f[SEQ_NUM], 9) || number(walk->bytes + f[SEQ_NUM].value, value_length(&f[SEQ_NUM])) == 0)
        what = "tag 34 is not a number of 1 to 9 digits from 1 up";
    else if (value_length(&f[SENDER]) == 0)
        what = "tag 49 is empty";
    else if (value_length(&f[TARGET]) == 0)
        what = "tag 56 is empty";
    if (what != NULL)
        printf("%s", what);
    return what != NULL;
}

static bool untrue_length(struct walk *walk)
{
    const struct field *nine = &walk->fields[BODY_LENGTH], *ten = &walk->fields[walk->count - 1];
    unsigned long said = number(walk->bytes + nine->value, value_length(nine));
    size_t counted = ten->start - (nine->end + 1);
    if (said == counted)
        return false;
    printf("BodyLength (9) is %zu, and the message says %lu", counted, said);
    return true;
}

static bool untrue_sum(struct walk *walk)
{
    const struct field *ten = &walk->fields[walk->count - 1];
    uint8_t sum = 0;
    for (size_t i = 0; i < ten->start; i++)
        sum = (uint8_t)(sum + walk->bytes[i]);
    if (is_number(walk, ten, 3) && value_length(ten) == 3 && number(walk->bytes + ten->value, 3) == sum)
        return false;
    printf("CheckSum (10) is %03u, and the message says %.*s", (unsigned)sum, (int)value_length(ten),
           (const char *)walk->bytes + ten->value);
    return true;
}

/* Behind the seconds stands nothing, or a point and three digits. */
static bool good_end(const uint8_t *time, size_t length)
{
    return length == 17 || (length == 21 && time[17] == '.' && all_digits(time + 18, 3));
}

/* YYYYMMDD-HH:MM:SS or YYYYMMDD-HH:MM:SS.sss; the parts of a time, where each begins and the numbers that it takes. */
static bool bad_time(struct walk *walk)
{
    static const struct {
        size_t start;
        unsigned long least, most;
    } parts[] = {{4, 1, 12}, {6, 1, 31}, {9, 0, 23}, {12, 0, 59}, {15, 0, 59}};
    const struct field *field = &walk->fields[SENDING_TIME];
    const uint8_t *time = walk->bytes + field->value;
    bool good = good_end(time, value_length(field)) && all_digits(time, 8) && time[8] == '-' && time[11] == ':' && time[14] == ':';
    for (size_t i = 0; good && i < sizeof parts / sizeof *parts; i++) {
        const uint8_t *digits = time + parts[i].start;
        good = all_digits(digits, 2) && number(digits, 2) >= parts[i].least && number(digits, 2) <= parts[i].most;
    }
    if (!good)
        printf("tag 52 is not a time, YYYYMMDD-HH:MM:SS with or without .sss");
    return !good;
}

/* Each reason counts on those before it not being there. */
static bool (*const reasons[])(struct walk *) = {
    bad_byte, no_last_soh, no_field, bad_order, repeated_tag, bad_header_value, untrue_length, untrue_sum, bad_time,
};

bool print_garbled(const struct message *message)
{
    static struct walk walk;
    if (message->length == 0) {
        printf("the line is empty");
        return true;
    }
    if (message->length > LONGEST_MESSAGE) {
        printf("%zu bytes, and a message has at most %d", message->length, LONGEST_MESSAGE);
        return true;
    }
    walk.bytes = message->bytes;
    walk.length = message->length;
    walk.count = 0;
    for (size_t i = 0; i < sizeof reasons / sizeof *reasons; i++)
        if (reasons[i](&walk))
            return true;
    return false;
}
