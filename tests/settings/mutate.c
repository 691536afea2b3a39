/* Reads settings files that are changed at random: mutate TIMES FILE.. Whatever the bytes, the reader ends and says either what is wrong, with
 * a line of the file and a reason of printable characters, or markets that the library opens as they are. Says what it saw, and status 1
 * where it is otherwise. Built with sanitizers by .ci/tests/settings. */
#include <ctype.h>
#include <inttypes.h>
#include <stdio.h>
#include <stdlib.h>
#include <string.h>

#include "kamurjesh.h"
#include "opening.h"

enum { ROOM = 1 << 16 };

static unsigned long good, bad;

/* The same numbers each time. */
static uint32_t next_random(void)
{
    static uint64_t state = 20260105;
    state = state * 6364136223846793005u + 1442695040888963407u;
    return (uint32_t)(state >> 33);
}

static size_t below(size_t bound)
{
    return bound == 0 ? 0 : next_random() % bound;
}

static void complain(const char *what, const char *text, size_t length)
{
    printf("mutate: %s, for these bytes:\n", what);
    fwrite(text, 1, length, stdout);
    exit(1);
}

/* ---- one change */

static size_t cut(char *text, size_t length)
{
    size_t at = below(length), many = below(length - at) + 1;
    if (length == 0)
        return 0;
    memmove(text + at, text + at + many, length - at - many);
    return length - many;
}

static size_t put_in(char *text, size_t length, const char *what, size_t many)
{
    size_t at = below(length + 1);
    if (length + many > ROOM)
        return length;
    memmove(text + at + many, text + at, length - at);
    memcpy(text + at, what, many);
    return length + many;
}

static size_t repeat(char *text, size_t length)
{
    static char part[ROOM];
    size_t at = below(length), many = below(length - at);
    memcpy(part, text + at, many);
    return put_in(text, length, part, many);
}

static size_t change(char *text, size_t length)
{
    static const char *const words[] = {"[MARKET]\n", "[DEFAULT]\n", "[SESSION]\n", "\nMPID 14=decrement\n", "MPID 999999", "=", "\n", "#", "[",
                                        "]", "\r\n", " ", "0", "cancel-oldest", "bonds", "equities", "Code=1\n", "Symbol=%s%n\n"};
    const char *word = words[below(sizeof words / sizeof *words)];
    char byte = (char)next_random();
    switch (below(6)) {
    case 0: return cut(text, length);
    case 1: return repeat(text, length);
    case 2: return put_in(text, length, &byte, 1);
    case 3: return below(length);
    case 4: return put_in(text, length, word, strlen(word));
    default:
        if (length > 0)
            text[below(length)] = byte;
        return length;
    }
}

/* ---- what must come back */

static bool opens(const struct opening *market)
{
    static uint8_t table[KAMURJESH_TABLE_BYTES];
    return (market->equities ? kamurjesh_equities_open : kamurjesh_open)(
               table, sizeof table, (const uint8_t *)market->venue, strlen(market->venue), (const uint8_t *)market->port,
               strlen(market->port), (const uint8_t *)market->code, strlen(market->code), market->first, market->mpids, market->count,
               market->modes, market->count) == KAMURJESH_TAKEN;
}

static bool is_told(const struct fault *fault, size_t lines)
{
    if (fault->line < 1 || fault->line > lines || fault->reason[0] == '\0')
        return false;
    for (const char *c = fault->reason; *c != '\0'; c++)
        if (!isprint((unsigned char)*c))
            return false;
    return true;
}

static size_t lines_of(const char *text, size_t length)
{
    size_t lines = 1;
    for (size_t i = 0; i < length; i++)
        lines += text[i] == '\n';
    return lines;
}

static void try(const char *text, size_t length)
{
    struct settings settings;
    struct openings openings;
    struct fault fault;
    char *copy = malloc(length + 1);
    if (copy == NULL)
        exit(2);
    memcpy(copy, text, length);
    if (!settings_parse(&settings, copy, length, &fault)) {
        bad++;
        if (!is_told(&fault, lines_of(text, length)))
            complain("a fault without a line or a reason", text, length);
        return;
    }
    if (!openings_of(&openings, &settings, &fault)) {
        bad++;
        if (!is_told(&fault, lines_of(text, length)))
            complain("a fault without a line or a reason", text, length);
    } else {
        good++;
        for (size_t i = 0; i < openings.count; i++)
            if (!opens(&openings.markets[i]))
                complain("a market that the library does not open", text, length);
        openings_free(&openings);
    }
    settings_free(&settings);
}

static size_t read_file(const char *file, char *text)
{
    FILE *from = fopen(file, "rb");
    if (from == NULL) {
        fprintf(stderr, "mutate: cannot read %s\n", file);
        exit(2);
    }
    size_t length = fread(text, 1, ROOM, from);
    fclose(from);
    return length;
}

int main(int count, char **words)
{
    static char whole[ROOM], text[ROOM];
    unsigned long times = count > 2 ? strtoul(words[1], NULL, 10) : 0;
    for (int i = 2; i < count; i++) {
        size_t length = read_file(words[i], whole);
        try(whole, length);
        for (unsigned long k = 0; k < times; k++) {
            size_t changed = length;
            memcpy(text, whole, length);
            for (size_t n = below(4) + 1; n > 0; n--)
                changed = change(text, changed);
            try(text, changed);
        }
    }
    printf("%lu files read, %lu told to be wrong\n", good, bad);
    return good > 0 && bad > 0 ? 0 : 1;
}
