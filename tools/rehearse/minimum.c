/* How much an order with a minimum could have traded: the same order without the minimum is tried on a copy of the table. Layer 2. */
#include "minimum.h"

#include <inttypes.h>
#include <string.h>

#include "kamurjesh.h"
#include "kind.h"

static uint8_t before[KAMURJESH_TABLE_BYTES];
static struct message noted;

void note_before(const uint8_t *table, const struct message *message)
{
    memcpy(before, table, sizeof before);
    noted = *message;
}

void forget_noted(void)
{
    noted.kept = 0;
}

bool is_killed(struct part report)
{
    bool has_minimum = part_is(value_of(report, 59), "4") || value_of(report, 110).length > 0;
    return has_minimum && part_is(value_of(report, 378), "99") && part_is(value_of(report, 14), "0");
}

static void add(struct message *message, const void *bytes, size_t length)
{
    memcpy(message->bytes + message->kept, bytes, length);
    message->kept += length;
}

/* Adds a field of the noted message as an IOC without a minimum has it: 59 is 3, and 110 is left out, as are 8, 9 and 10, which are
 * worked out anew. */
static void add_plain(struct message *body, struct part field)
{
    struct part tag = {field.bytes, (size_t)((const uint8_t *)memchr(field.bytes, '=', field.length) - field.bytes)};
    if (part_is(tag, "59"))
        add(body, "59=3\001", 5);
    else if (!part_is(tag, "8") && !part_is(tag, "9") && !part_is(tag, "10") && !part_is(tag, "110"))
        add(body, field.bytes, field.length);
}

/* 8 and 9, the body, and 10. */
static void frame(struct message *message, const struct message *body)
{
    char front[32], end[8];
    uint8_t sum = 0;
    message->kept = 0;
    add(message, front, (size_t)snprintf(front, sizeof front, "8=FIX.4.2\0019=%zu\001", body->kept));
    add(message, body->bytes, body->kept);
    for (size_t i = 0; i < message->kept; i++)
        sum = (uint8_t)(sum + message->bytes[i]);
    add(message, end, (size_t)snprintf(end, sizeof end, "10=%03u\001", (unsigned)sum));
}

/* The noted message, which was taken and so is a row of fields, as an IOC without a minimum. It is not longer. */
static void write_plain(struct message *message)
{
    static struct message body;
    body.kept = 0;
    for (size_t at = 0, next; at < noted.kept; at = next) {
        next = (size_t)((const uint8_t *)memchr(noted.bytes + at, SOH, noted.kept - at) - noted.bytes) + 1;
        add_plain(&body, (struct part){noted.bytes + at, next - at});
    }
    frame(message, &body);
}

/* What the order in work has traded by these reports. */
static uint64_t traded(struct part reports)
{
    uint64_t quantity = 0;
    for (struct part report; take_report(&reports, &report);)
        if (part_is(value_of(report, 851), "2"))
            quantity += number_in(value_of(report, 32));
    return quantity;
}

/* False where the order is not known, or is not taken without its minimum either. */
static bool could_trade(uint64_t *quantity)
{
    static struct message plain;
    static uint8_t table[KAMURJESH_TABLE_BYTES], area[65536];
    uint64_t bytes, reports, steps;
    *quantity = 0;
    if (noted.kept == 0)
        return false;
    memcpy(table, before, sizeof table);
    write_plain(&plain);
    if (kind->submit(table, sizeof table, plain.bytes, plain.kept, area, sizeof area, &bytes) != KAMURJESH_TAKEN)
        return false;
    do {
        if (kind->run(table, sizeof table, area, sizeof area, UINT64_MAX, &bytes, &reports, &steps) != KAMURJESH_TAKEN)
            return false;
        *quantity += traded((struct part){area, (size_t)bytes});
    } while (steps > 0);
    return true;
}

void print_killed(struct part report)
{
    struct part minimum = value_of(report, part_is(value_of(report, 59), "4") ? 38 : 110);
    uint64_t quantity;
    printf("killed whole: ");
    if (could_trade(&quantity))
        printf("only %" PRIu64 " of the minimum ", quantity);
    else
        printf("less than the minimum ");
    print_part(minimum);
    printf(" could trade");
}
