/* The calls of the market, each answer in words. Layer 4. */
#include "market.h"

#include <inttypes.h>
#include <string.h>

#include "expect.h"
#include "garbled.h"
#include "kamurjesh.h"
#include "kind.h"
#include "meanings.h"
#include "minimum.h"
#include "reports.h"

static uint8_t table[KAMURJESH_TABLE_BYTES];
static uint8_t area[65536];

static void open_table(uint8_t *to, const struct opening *opening)
{
    expect_taken("Open", kind->open(to, KAMURJESH_TABLE_BYTES, (const uint8_t *)opening->venue, strlen(opening->venue),
                                    (const uint8_t *)opening->port, strlen(opening->port), (const uint8_t *)opening->code,
                                    strlen(opening->code), opening->first, opening->mpids, opening->count, opening->modes,
                                    opening->count));
}

void open_market(const struct opening *opening)
{
    open_table(table, opening);
}

/* Where the heading of a table has what it was opened with (docs/TABLE.md): the ids and the code, and the MPIDs with their modes. */
bool has_settings(const struct opening *opening)
{
    static uint8_t fresh[KAMURJESH_TABLE_BYTES];
    enum { IDS = 0, NEXT_NUMBER = 28, MPIDS = 56, BEHIND_MODES = 96 };
    open_table(fresh, opening);
    return memcmp(table + IDS, fresh + IDS, NEXT_NUMBER - IDS) == 0 && memcmp(table + MPIDS, fresh + MPIDS, BEHIND_MODES - MPIDS) == 0;
}

void save_table(uint8_t *image)
{
    expect_taken("Save", kind->save(table, sizeof table, image, IMAGE_BYTES));
}

uint64_t restore_table(const uint8_t *image, size_t length, uint64_t *block)
{
    return kind->restore(table, sizeof table, image, length, block);
}

/* Run is called until it takes no step: it stops where the area has no room for what may follow. */
uint64_t run_to_the_end(void)
{
    uint64_t bytes, reports, steps, taken = 0;
    do {
        expect_taken("Run", kind->run(table, sizeof table, area, sizeof area, UINT64_MAX, &bytes, &reports, &steps));
        print_reports((struct part){area, (size_t)bytes});
        taken += steps;
    } while (steps > 0);
    return taken;
}

static void print_answer(uint64_t refusal, const struct message *message, struct part report)
{
    switch (refusal) {
    case KAMURJESH_TAKEN: printf("taken"); break;
    case KAMURJESH_NUMBERS_SPENT: printf("refused (4): the report numbers are used up"); break;
    case KAMURJESH_GARBLED:
        printf("garbled (5): ");
        if (!print_garbled(message))
            printf("the bytes have not the form of a message");
        break;
    case KAMURJESH_SESSION_REJECT: print_session_reject(report); break;
    case KAMURJESH_ORDER_REJECT: print_order_reject(report); break;
    case KAMURJESH_CHANGE_REJECT: print_change_reject(report); break;
    default: expect_taken("Submit", refusal);
    }
    putchar('\n');
}

void take_message(const struct message *message)
{
    uint64_t length;
    note_before(table, message);
    uint64_t refusal = kind->submit(table, sizeof table, message->bytes, message->kept, area, sizeof area, &length);
    struct part report = {area, (size_t)length};
    print_answer(refusal, message, report);
    print_reports(report);
    run_to_the_end();
}

uint64_t load_some(struct part buffer, uint64_t *place, uint64_t *finished)
{
    uint64_t far, many, bytes, reports;
    uint64_t number = kind->load(table, sizeof table, buffer.bytes, buffer.length, area, sizeof area, &far, &many, &bytes, &reports);
    print_reports((struct part){area, (size_t)bytes});
    *place += far;
    *finished += many + (run_to_the_end() > 0);
    return number;
}

size_t take_levels(uint64_t side, struct level *levels)
{
    size_t count = 0;
    uint64_t found = 1;
    while (count < MOST_LEVELS && found) {
        struct level *level = &levels[count];
        expect_taken("Depth", kind->depth(table, sizeof table, side, count, &found, &level->quote, &level->total, &level->orders));
        count += found;
    }
    return count;
}

void print_quote(FILE *out, int64_t quote)
{
    int64_t size = quote < 0 ? -quote : quote;
    fprintf(out, "%s%" PRId64 ".%0*" PRId64, quote < 0 ? "-" : "", size / kind->unit, kind->decimals, size % kind->unit);
}

static void print_side(uint64_t side)
{
    static struct level levels[MOST_LEVELS];
    size_t count = take_levels(side, levels);
    for (size_t k = 0; k < count; k++) {
        printf("%" PRIu64 " ", side);
        print_quote(stdout, levels[k].quote);
        printf(" %" PRIu64 " %" PRIu64 "\n", levels[k].total, levels[k].orders);
    }
}

void print_depth(void)
{
    printf("side %s quantity orders\n", kind->quote_name);
    print_side(KAMURJESH_BUY);
    print_side(KAMURJESH_SELL);
}
