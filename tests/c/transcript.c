/* transcript < COMMANDS > TRANSCRIPT: does the commands of tests/vectors/README.md through the C interface and writes the answer to
 * each. It also looks at what no transcript shows: the area's bytes behind those written are as they were, and kamurjesh_field
 * finds every field of a report or a copy where it stands. Exit status 1 and a word on standard error where that fails or a line is
 * no command. */
#include <inttypes.h>
#include <stdio.h>
#include <stdlib.h>
#include <string.h>

#include "calls.h"

#define SOH '\001'
#define LONGEST_LINE 8192
#define LARGEST_AREA 65536
#define UNTOUCHED 0xa7

static const struct calls *calls = &bond_calls;
static uint8_t table[KAMURJESH_TABLE_BYTES];
static uint8_t area[LARGEST_AREA];
static uint8_t image[KAMURJESH_IMAGE_BYTES + 1];
static unsigned long line_number;

struct text {
    uint8_t bytes[LONGEST_LINE];
    size_t length;
};

static void fail(const char *what)
{
    fflush(stdout);
    fprintf(stderr, "line %lu: %s\n", line_number, what);
    exit(1);
}

/* ---- reading a command: each takes what is left of the line and moves on */

static uint64_t take_number(const char **at)
{
    uint64_t n = 0;
    if (**at < '0' || **at > '9')
        fail("a number is missing");
    for (; **at >= '0' && **at <= '9'; ++*at) {
        uint64_t digit = (uint64_t)(**at - '0');
        if (n > (UINT64_MAX - digit) / 10)
            fail("a number is too large");
        n = 10 * n + digit;
    }
    return n;
}

static void take_mark(const char **at, char mark)
{
    if (**at != mark)
        fail("a mark is missing");
    ++*at;
}

static void take_end(const char **at)
{
    if (**at != '\0')
        fail("more than a command");
}

static unsigned hex_digit(char c)
{
    if (c >= '0' && c <= '9')
        return (unsigned)(c - '0');
    if (c >= 'a' && c <= 'f')
        return (unsigned)(c - 'a') + 10;
    fail("no hex digit");
    return 0;
}

static uint8_t take_byte(const char **at)
{
    if (**at == '|') {
        ++*at;
        return SOH;
    }
    if (**at != '\\')
        return (uint8_t) * (*at)++;
    ++*at;
    take_mark(at, 'x');
    unsigned high = hex_digit(**at);
    ++*at;
    unsigned low = hex_digit(**at);
    ++*at;
    return (uint8_t)(16 * high + low);
}

static void take_text(const char **at, struct text *text)
{
    text->length = 0;
    while (**at != ';' && **at != '\0')
        text->bytes[text->length++] = take_byte(at);
}

static size_t take_area(const char **at)
{
    uint64_t n = take_number(at);
    if (n > LARGEST_AREA)
        fail("the area is too large");
    return (size_t)n;
}

/* ---- writing an answer */

static void say_bytes(const uint8_t *bytes, size_t length)
{
    for (size_t i = 0; i < length; i++) {
        uint8_t b = bytes[i];
        if (b == SOH)
            putchar('|');
        else if (b < 0x20 || b > 0x7e || b == '|' || b == ';' || b == '\\')
            printf("\\x%02x", b);
        else
            putchar(b);
    }
}

static void say_written(uint64_t length)
{
    if (length > 0) {
        putchar(' ');
        say_bytes(area, (size_t)length);
    }
    putchar('\n');
}

static void check_rest(size_t area_length, uint64_t written)
{
    if (written > area_length)
        fail("more bytes than the area has");
    for (size_t i = (size_t)written; i < area_length + 64 && i < sizeof area; i++)
        if (area[i] != UNTOUCHED)
            fail("a byte of the area that was not written has changed");
}

/* ---- the commands */

static void open_market(const char *at)
{
    static struct text venue, port, code;
    static uint64_t mpids[LONGEST_LINE], modes[LONGEST_LINE];
    size_t n = 0;
    take_text(&at, &venue);
    take_mark(&at, ';');
    take_text(&at, &port);
    take_mark(&at, ';');
    take_text(&at, &code);
    take_mark(&at, ';');
    uint64_t first = take_number(&at);
    for (; *at == ';'; n++) {
        at++;
        mpids[n] = take_number(&at);
        take_mark(&at, ':');
        modes[n] = take_number(&at);
    }
    take_end(&at);
    printf("o %" PRIu64 "\n",
           calls->open(table, sizeof table, venue.bytes, venue.length, port.bytes, port.length, code.bytes, code.length, first, mpids, n,
                       modes, n));
}

static void submit(const char *at)
{
    static struct text message;
    size_t area_length = take_area(&at);
    take_mark(&at, ';');
    take_text(&at, &message);
    take_end(&at);
    uint64_t length = UINT64_MAX;
    memset(area, UNTOUCHED, sizeof area);
    uint64_t number = calls->submit(table, sizeof table, message.bytes, message.length, area, area_length, &length);
    check_rest(area_length, length);
    printf("s %" PRIu64 " %" PRIu64, number, length);
    say_written(length);
}

static void run(const char *at)
{
    size_t area_length = take_area(&at);
    take_mark(&at, ';');
    uint64_t budget = take_number(&at);
    take_end(&at);
    uint64_t bytes = UINT64_MAX, reports = UINT64_MAX, steps = UINT64_MAX;
    memset(area, UNTOUCHED, sizeof area);
    uint64_t number = calls->run(table, sizeof table, area, area_length, budget, &bytes, &reports, &steps);
    check_rest(area_length, bytes);
    printf("r %" PRIu64 " %" PRIu64 " %" PRIu64 " %" PRIu64, number, bytes, reports, steps);
    say_written(bytes);
}

static void load(const char *at)
{
    static struct text buffer;
    size_t area_length = take_area(&at);
    take_mark(&at, ';');
    take_text(&at, &buffer);
    take_end(&at);
    uint64_t place = UINT64_MAX, finished = UINT64_MAX, bytes = UINT64_MAX, reports = UINT64_MAX;
    memset(area, UNTOUCHED, sizeof area);
    uint64_t number = calls->load(table, sizeof table, buffer.bytes, buffer.length, area, area_length, &place, &finished, &bytes, &reports);
    check_rest(area_length, bytes);
    printf("l %" PRIu64 " %" PRIu64 " %" PRIu64 " %" PRIu64 " %" PRIu64, number, place, finished, bytes, reports);
    say_written(bytes);
}

static void depth(const char *at)
{
    uint64_t side = take_number(&at);
    take_mark(&at, ';');
    uint64_t k = take_number(&at);
    take_end(&at);
    uint64_t found = UINT64_MAX, total = UINT64_MAX, orders = UINT64_MAX;
    int64_t quote = INT64_MIN; /* a yield in thousandths or a price in tenths */
    uint64_t number = calls->depth(table, sizeof table, side, k, &found, &quote, &total, &orders);
    printf("d %" PRIu64 " %" PRIu64 " %" PRId64 " %" PRIu64 " %" PRIu64 "\n", number, found, quote, total, orders);
}

static void top(const char *at)
{
    uint64_t side = take_number(&at);
    take_end(&at);
    uint64_t found = UINT64_MAX, total = UINT64_MAX, orders = UINT64_MAX;
    int64_t quote = INT64_MIN;
    uint64_t number = calls->top(table, sizeof table, side, &found, &quote, &total, &orders);
    printf("t %" PRIu64 " %" PRIu64 " %" PRId64 " %" PRIu64 " %" PRIu64 "\n", number, found, quote, total, orders);
}

/* Puts a byte into the table or the image and says which one was there. */
static void put_byte(char letter, uint8_t *bytes, size_t length, const char *at)
{
    uint64_t place = take_number(&at);
    take_mark(&at, ';');
    uint64_t byte = take_number(&at);
    take_end(&at);
    if (place >= length || byte > 255)
        fail("no such place, or no byte");
    printf("%c %u\n", letter, (unsigned)bytes[place]);
    bytes[place] = (uint8_t)byte;
}

/* The field of a report that begins at a place, as kamurjesh_field gives it; returns the place behind it. */
static size_t say_field(const struct text *report, size_t at)
{
    uint64_t tag = 0, start = UINT64_MAX, length = UINT64_MAX;
    for (; report->bytes[at] != '='; at++)
        tag = 10 * tag + (uint64_t)(report->bytes[at] - '0');
    if (kamurjesh_field(report->bytes, report->length, tag, &start, &length) != 1)
        fail("a field of a report was not found");
    if (start != at + 1 || length > report->length - start || report->bytes[start + length] != SOH)
        fail("a field of a report was found elsewhere");
    printf("%" PRIu64 "=", tag);
    say_bytes(report->bytes + start, (size_t)length);
    putchar(';');
    return (size_t)(start + length + 1);
}

/* Reading, of a report or of a copy, and its letter. */
typedef uint64_t reader(const uint8_t *bytes, size_t length, uint64_t *kind);

static void read_by(reader *read, char letter, const char *at)
{
    static struct text report;
    take_text(&at, &report);
    take_end(&at);
    uint64_t kind = UINT64_MAX, start, length;
    uint64_t number = read(report.bytes, report.length, &kind);
    printf("%c %" PRIu64 " %" PRIu64, letter, number, kind);
    if (number == 0) {
        putchar(' ');
        for (size_t i = 0; i < report.length;)
            i = say_field(&report, i);
        if (kamurjesh_field(report.bytes, report.length, 9999, &start, &length) != 0)
            fail("a field was found that is not there");
    }
    putchar('\n');
}

static void copy(const char *at)
{
    static struct text port, group, report;
    uint64_t subscription = take_number(&at);
    take_mark(&at, ';');
    uint64_t shows = take_number(&at);
    take_mark(&at, ';');
    take_text(&at, &port);
    take_mark(&at, ';');
    take_text(&at, &group);
    take_mark(&at, ';');
    uint64_t next = take_number(&at);
    take_mark(&at, ';');
    size_t area_length = take_area(&at);
    take_mark(&at, ';');
    take_text(&at, &report);
    take_end(&at);
    uint64_t length = UINT64_MAX, next_after = UINT64_MAX;
    memset(area, UNTOUCHED, sizeof area);
    uint64_t number = calls->copy(report.bytes, report.length, subscription, shows, port.bytes, port.length, group.bytes, group.length,
                                  next, area, area_length, &length, &next_after);
    check_rest(area_length, length);
    printf("c %" PRIu64 " %" PRIu64 " %" PRIu64, number, length, next_after);
    say_written(length);
}

/* The lengths that Save and Restore are lent, of the table and of the image. */
struct lent {
    size_t table, image;
};

static struct lent take_lent(const char **at)
{
    uint64_t of_table = take_number(at);
    take_mark(at, ';');
    uint64_t of_image = take_number(at);
    take_end(at);
    if (of_table > sizeof table || of_image > sizeof image)
        fail("more than there is of the table or of the image");
    return (struct lent){(size_t)of_table, (size_t)of_image};
}

/* The check of a block as it stands in the image. */
static uint32_t check_of(size_t block)
{
    const uint8_t *at = image + 512 * block + 508;
    return at[0] | (uint32_t)at[1] << 8 | (uint32_t)at[2] << 16 | (uint32_t)at[3] << 24;
}

static void save(const char *at)
{
    struct lent lent = take_lent(&at);
    uint64_t number = calls->save(table, lent.table, image, lent.image);
    printf("w %" PRIu64, number);
    for (size_t block = 0; number == 0 && block < KAMURJESH_IMAGE_BYTES / 512; block++)
        printf(" %" PRIu32, check_of(block));
    putchar('\n');
}

static void restore(const char *at)
{
    struct lent lent = take_lent(&at);
    uint64_t block = UINT64_MAX;
    uint64_t number = calls->restore(table, lent.table, image, lent.image, &block);
    printf("u %" PRIu64 " %" PRIu64 "\n", number, block);
}

/* The calls from here on are those of the bond market or of the equities market. */
static void choose(const char *at)
{
    uint64_t kind = take_number(&at);
    take_end(&at);
    if (kind > 1)
        fail("no such market");
    calls = kind == 0 ? &bond_calls : &equities_calls;
    printf("q %" PRIu64 "\n", kind);
}

static void answer(const char *line)
{
    if (line[0] == '#') {
        puts(line);
        return;
    }
    const char letter = line[0];
    if (letter == '\0' || line[1] != ' ')
        fail("no command");
    switch (letter) {
    case 'o': open_market(line + 2); break;
    case 's': submit(line + 2); break;
    case 'r': run(line + 2); break;
    case 'l': load(line + 2); break;
    case 'd': depth(line + 2); break;
    case 't': top(line + 2); break;
    case 'b': put_byte('b', table, sizeof table, line + 2); break;
    case 'x': read_by(calls->read, 'x', line + 2); break;
    case 'c': copy(line + 2); break;
    case 'y': read_by(calls->copy_read, 'y', line + 2); break;
    case 'w': save(line + 2); break;
    case 'u': restore(line + 2); break;
    case 'i': put_byte('i', image, sizeof image, line + 2); break;
    case 'q': choose(line + 2); break;
    default: fail("no command");
    }
}

int main(void)
{
    static char line[LONGEST_LINE + 2];
    while (fgets(line, sizeof line, stdin) != NULL) {
        size_t n = strlen(line);
        line_number++;
        if (n > 0 && line[n - 1] == '\n')
            line[n - 1] = '\0';
        else if (n > LONGEST_LINE)
            fail("the line is too long");
        answer(line);
    }
    return 0;
}
