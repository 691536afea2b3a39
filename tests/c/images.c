/* Tests of images of tables through the C interface: what is written is read back to the same table, in both markets; every byte of
 * an image, changed, is noticed with its block, and so are every two blocks that are exchanged, and nothing that was lent has
 * changed then. Prints what failed and, last, how many images were tried; exit status 1 if any failed. */
#include <inttypes.h>
#include <stdio.h>
#include <stdlib.h>
#include <string.h>

#include "calls.h"
#include "messages.h"

enum { TABLE = KAMURJESH_TABLE_BYTES, IMAGE = KAMURJESH_IMAGE_BYTES, BLOCK = 512, BLOCKS = IMAGE / BLOCK };

static unsigned long tried, failures;
static uint8_t table[TABLE + 1], kept[TABLE + 1], area[8192], image[IMAGE + 1], changed[IMAGE + 1];

static void fail(const struct calls *calls, const char *what, size_t where)
{
    failures++;
    printf("%s: %s: %zu\n", calls == &bond_calls ? "bonds" : "equities", what, where);
}

/* ---- a market with 255 open orders */

static struct message some_order(const struct calls *calls, unsigned id)
{
    char name[32], body[600];
    int side = id % 2 ? 1 : 2;
    snprintf(name, sizeof name, "order-%u", id);
    if (calls == &bond_calls)
        return new_order(name, side, id * 1000003, side == 1 ? "9.125" : "-3", 10, '0');
    snprintf(body, sizeof body,
             "1=an account|11=%s|21=1|38=%u|40=2|44=%s|47=P|54=%d|55=7203|59=0|60=20260105-09:00:00|109=999999|544=2|8060=3|8214=1|", name,
             id * 1000003, side == 1 ? "1.5" : "12345678.9", side == 1 ? 1 : 6);
    return sent("D", body);
}

static void take(const struct calls *calls, const struct message *m)
{
    uint64_t length, bytes, reports, steps;
    if (calls->submit(table, TABLE, m->bytes, m->length, area, sizeof area, &length) != 0 ||
        calls->run(table, TABLE, area, sizeof area, UINT64_MAX, &bytes, &reports, &steps) != 0) {
        fail(calls, "an order was not taken", 0);
        exit(1);
    }
}

static void fill(const struct calls *calls)
{
    static const uint64_t mpids[] = {10, 999999}, modes[] = {3, 1};
    const uint8_t *venue = (const uint8_t *)"V", *port = (const uint8_t *)"P";
    const char *code = calls == &bond_calls ? "350" : "7203";
    if (calls->open(table, TABLE, venue, 1, port, 1, (const uint8_t *)code, strlen(code), 1, mpids, 2, modes, 2) != 0)
        fail(calls, "it was not opened", 0);
    for (unsigned id = 1; id <= 255; id++) {
        struct message m = some_order(calls, id);
        take(calls, &m);
    }
}

/* ---- images */

/* The changed image is refused with this number and block, and table and image are as they were. */
static void expect_refused(const struct calls *calls, size_t length, uint64_t number, uint64_t block, size_t where)
{
    uint64_t said = UINT64_MAX;
    tried++;
    if (calls->restore(table, TABLE, changed, length, &said) != number)
        fail(calls, "another refusal at", where);
    if (said != block)
        fail(calls, "another block at", where);
    if (memcmp(table, kept, sizeof table) != 0)
        fail(calls, "a refusal has changed the table at", where);
    memcpy(table, kept, sizeof table);
}

static void change_each_byte(const struct calls *calls)
{
    memcpy(changed, image, sizeof image);
    for (size_t at = 0; at < IMAGE; at++)
        for (unsigned by = 1; by < 256; by += by == 1 ? 126 : 64) {
            changed[at] = (uint8_t)(image[at] + by);
            expect_refused(calls, IMAGE, KAMURJESH_BAD_BLOCK, at / BLOCK, at);
            changed[at] = image[at];
        }
}

static void exchange_each_two(const struct calls *calls)
{
    for (size_t one = 0; one < BLOCKS; one++)
        for (size_t other = one + 1; other < BLOCKS; other++) {
            memcpy(changed, image, sizeof image);
            memcpy(changed + one * BLOCK, image + other * BLOCK, BLOCK);
            memcpy(changed + other * BLOCK, image + one * BLOCK, BLOCK);
            expect_refused(calls, IMAGE, KAMURJESH_BAD_BLOCK, one, one * BLOCKS + other);
        }
}

static void try_lengths(const struct calls *calls, const struct calls *others)
{
    static const size_t lengths[] = {0, 1, BLOCK, TABLE, IMAGE - 1, IMAGE + 1};
    uint64_t block;
    memcpy(changed, image, sizeof image);
    for (size_t i = 0; i < sizeof lengths / sizeof *lengths; i++) {
        expect_refused(calls, lengths[i], KAMURJESH_BAD_LENGTH, 0, lengths[i]);
        if (calls->save(table, TABLE, changed, lengths[i]) != KAMURJESH_BAD_LENGTH || memcmp(changed, image, sizeof image) != 0)
            fail(calls, "Save with an image of this length", lengths[i]);
    }
    for (size_t length = TABLE - 1; length <= TABLE + 1; length += 2) {
        if (calls->save(table, length, changed, IMAGE) != KAMURJESH_BAD_LENGTH || memcmp(changed, image, sizeof image) != 0)
            fail(calls, "Save with a table of this length", length);
        if (calls->restore(table, length, image, IMAGE, &block) != KAMURJESH_BAD_LENGTH || memcmp(table, kept, sizeof table) != 0)
            fail(calls, "Restore with a table of this length", length);
    }
    expect_refused(others, IMAGE, KAMURJESH_NO_MARKET, 0, 0);
    if (others->save(table, TABLE, changed, IMAGE) != KAMURJESH_NO_MARKET || memcmp(changed, image, sizeof image) != 0)
        fail(calls, "Save by the other market", 0);
}

static void try_images(const struct calls *calls, const struct calls *others)
{
    uint64_t block = UINT64_MAX;
    memset(image, 0xa7, sizeof image);
    memset(table, 0xa7, sizeof table);
    fill(calls);
    memcpy(kept, table, sizeof table);
    if (calls->save(table, TABLE, image, IMAGE) != 0 || image[IMAGE] != 0xa7 || memcmp(table, kept, sizeof table) != 0)
        fail(calls, "Save", 0);
    memset(table, 0, TABLE);
    if (calls->restore(table, TABLE, image, IMAGE, &block) != 0 || block != 0 || memcmp(table, kept, sizeof table) != 0)
        fail(calls, "Restore", 0);
    change_each_byte(calls);
    exchange_each_two(calls);
    try_lengths(calls, others);
}

int main(void)
{
    try_images(&bond_calls, &equities_calls);
    try_images(&equities_calls, &bond_calls);
    printf("%lu images that were changed or are none, %lu failures\n", tried, failures);
    return failures > 0;
}
