/* stack: how many bytes of stack each call uses. The stack below is painted before a call, and looked at after it. 200 orders rest
 * in the book. Prints a row of docs/FIGURES.md for each call. */
#include <stdio.h>
#include <stdlib.h>

#include "kamurjesh.h"
#include "messages.h"

enum { DEEP = 300000 };
#define PAINT 0xee

static uint8_t table[KAMURJESH_TABLE_BYTES];
static uint8_t area[300000];
static uint8_t image[KAMURJESH_IMAGE_BYTES];
static uint64_t length, bytes, reports, steps;

__attribute__((noinline)) static void paint(void)
{
    volatile uint8_t below[DEEP];
    for (size_t i = 0; i < DEEP; i++)
        below[i] = PAINT;
}

__attribute__((noinline)) static size_t used(void)
{
    volatile uint8_t below[DEEP];
    size_t i = 0;
    while (i < DEEP && below[i] == PAINT)
        i++;
    return DEEP - i;
}

static void row(const char *what, size_t most)
{
    printf("| %s | %zu |\n", what, most);
}

static void must(int holds)
{
    if (!holds)
        exit(1);
}

static uint64_t open_market(void)
{
    static const uint64_t mpids[] = {10, 11, 12}, modes[] = {1, 1, 3};
    return kamurjesh_open(table, sizeof table, (const uint8_t *)"V", 1, (const uint8_t *)"P", 1, (const uint8_t *)"350", 3, 1,
                          mpids, 3, modes, 3);
}

static size_t submit(const struct message *m)
{
    paint();
    must(kamurjesh_submit(table, sizeof table, m->bytes, m->length, area, sizeof area, &length) == 0);
    return used();
}

static size_t run(void)
{
    paint();
    must(kamurjesh_run(table, sizeof table, area, sizeof area, 1000, &bytes, &reports, &steps) == 0);
    return used();
}

int main(void)
{
    size_t most = 0;
    uint64_t found, total, orders, kind, start, digits, next, block;
    int64_t yield;
    paint();
    must(open_market() == 0);
    row("Open", used());
    for (unsigned i = 1; i <= 200; i++) {
        char id[16];
        snprintf(id, sizeof id, "ORDER-%u", i);
        struct message m = new_order(id, KAMURJESH_SELL, 100, "0.100", 11, '0');
        size_t n = submit(&m);
        most = n > most ? n : most;
        run();
    }
    row("Submit", most);
    struct message sweep = new_order("SWEEP", KAMURJESH_BUY, 30000, "0.000", 12, '0');
    submit(&sweep);
    row("Run", run());
    paint();
    must(kamurjesh_depth(table, sizeof table, KAMURJESH_BUY, 0, &found, &yield, &total, &orders) == 0 && found == 1);
    row("Depth", used());
    must(kamurjesh_field(area, bytes, 9, &start, &digits) == 1);
    size_t size = (size_t)(start + digits) + 8 + strtoul((const char *)area + start, NULL, 10);
    paint();
    must(kamurjesh_read(area, size, &kind) == 0 && kind == KAMURJESH_IS_TRADE);
    row("Read", used());
    paint();
    must(kamurjesh_copy(area, size, KAMURJESH_FULL, KAMURJESH_SHOWS_BOTH, (const uint8_t *)"PORT-1", 6, (const uint8_t *)"GROUP-7", 7,
                        1, area + bytes, sizeof area - bytes, &length, &next) == 0 &&
         length > size);
    row("Copy", used());
    paint();
    must(kamurjesh_save(table, sizeof table, image, sizeof image) == 0);
    row("Save", used());
    paint();
    must(kamurjesh_restore(table, sizeof table, image, sizeof image, &block) == 0);
    row("Restore", used());
    struct message loaded = new_order("LOADED", KAMURJESH_SELL, 100, "0.000", 11, '0');
    paint();
    must(kamurjesh_load(table, sizeof table, loaded.bytes, loaded.length, area, sizeof area, &start, &digits, &bytes, &reports) == 0);
    row("Load", used());
    return 0;
}
