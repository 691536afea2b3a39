/* A small host of the market. Under each of the three self-trade modes it opens a market, sends book R (four sells) and then A's
 * buy of 1,200 at 0.100, and prints every report, with | for SOH, the top of the book after each call, as a dashboard would repaint
 * it, and the whole book after each order. Last comes an equities market: a short sell and a buy that trades with it. */
#include <inttypes.h>
#include <stdio.h>
#include <stdlib.h>

#include "kamurjesh.h"

#define SOH '\001'

struct order {
    const char *cl_ord_id;
    int side;
    unsigned quantity;
    const char *yield;
    unsigned mpid;
};

static const struct order book_r[] = {
    {"S-1", KAMURJESH_SELL, 100, "0.101", 11},
    {"S-2", KAMURJESH_SELL, 200, "0.100", 12},
    {"S-3", KAMURJESH_SELL, 200, "0.100", 10},
    {"S-4", KAMURJESH_SELL, 500, "0.100", 13},
};
static const struct order buy_of_a = {"B-1", KAMURJESH_BUY, 1200, "0.100", 10};

static uint8_t table[KAMURJESH_TABLE_BYTES];
static uint8_t area[8192];
static unsigned sent;

/* Stops with a word where a call was refused. */
static void take(const char *call, uint64_t refusal)
{
    if (refusal == KAMURJESH_TAKEN)
        return;
    printf("%s was refused: %" PRIu64 "\n", call, refusal);
    exit(1);
}

/* Writes a new order with this body as a FIX message and gives its length. 9 and 10 depend on the fields between them. */
static size_t write_framed(uint8_t *message, size_t room, const char *body)
{
    char fields[700];
    int length = snprintf(fields, sizeof fields, "35=D|34=%u|49=P|52=20260105-09:00:%02u|56=V|%s", sent + 1, sent % 60, body);
    int all = snprintf((char *)message, room, "8=FIX.4.2|9=%d|%s", length, fields);
    unsigned sum = 0;
    for (int i = 0; i < all; i++) {
        if (message[i] == '|')
            message[i] = SOH;
        sum += message[i];
    }
    sent++;
    return (size_t)all + (size_t)snprintf((char *)message + all, room - (size_t)all, "10=%03u%c", sum % 256, SOH);
}

static size_t write_message(uint8_t *message, size_t room, const struct order *o)
{
    char body[512];
    snprintf(body, sizeof body, "11=%s|21=1|38=%u|40=2|44=%s|47=A|54=%d|55=350|59=0|60=20260105-09:00:00|109=%u|8060=1|", o->cl_ord_id,
             o->quantity, o->yield, o->side, o->mpid);
    return write_framed(message, room, body);
}

/* Where the first report of some bytes ends, told by its 9: that many bytes behind it, and seven for 10. */
static size_t first_report(const uint8_t *bytes, size_t length)
{
    uint64_t start, digits, body = 0;
    if (!kamurjesh_field(bytes, length, 9, &start, &digits))
        return length;
    for (uint64_t i = 0; i < digits; i++)
        body = 10 * body + (bytes[start + i] - (unsigned)'0');
    return start + digits + 1 + body + 7;
}

/* Prints the reports of a market, each of which its Read takes. */
typedef uint64_t reader(const uint8_t *report, size_t length, uint64_t *kind);

static void print_reports(reader *read, const uint8_t *bytes, size_t length)
{
    while (length > 0) {
        size_t n = first_report(bytes, length);
        uint64_t kind;
        take("Read", read(bytes, n, &kind));
        printf("  ");
        for (size_t i = 0; i < n; i++)
            putchar(bytes[i] == SOH ? '|' : bytes[i]);
        putchar('\n');
        bytes += n;
        length -= n;
    }
}

static void print_level(int64_t yield, uint64_t total, uint64_t orders)
{
    int64_t size = yield < 0 ? -yield : yield;
    printf("%s%" PRId64 ".%03" PRId64 " %" PRIu64 " %" PRIu64, yield < 0 ? "-" : "", size / 1000, size % 1000, total, orders);
}

static void print_side(uint64_t side)
{
    for (uint64_t k = 0;; k++) {
        uint64_t found, total, orders;
        int64_t yield;
        take("Depth", kamurjesh_depth(table, sizeof table, side, k, &found, &yield, &total, &orders));
        if (!found)
            return;
        printf("  %" PRIu64 " ", side);
        print_level(yield, total, orders);
        putchar('\n');
    }
}

/* Repaints the best level of each side, which costs no look at the orders. While an order is in work there is none to show. */
static void repaint(void)
{
    printf(" top");
    for (uint64_t side = KAMURJESH_BUY; side <= KAMURJESH_SELL; side++) {
        uint64_t found, total, orders;
        int64_t yield;
        uint64_t refusal = kamurjesh_top(table, sizeof table, side, &found, &yield, &total, &orders);
        if (refusal != KAMURJESH_IN_WORK)
            take("Top of book", refusal);
        printf(" | %" PRIu64 " ", side);
        if (found)
            print_level(yield, total, orders);
        else
            printf(refusal == KAMURJESH_IN_WORK ? ".." : "-");
    }
    putchar('\n');
}

/* Submits an order and runs it to its end, four steps at a time. */
static void trade(const struct order *o)
{
    uint8_t message[1024];
    size_t n = write_message(message, sizeof message, o);
    uint64_t length, bytes, reports, steps, all_steps = 0;
    printf(" %s\n", o->cl_ord_id);
    take("Submit", kamurjesh_submit(table, sizeof table, message, n, area, sizeof area, &length));
    print_reports(kamurjesh_read, area, length);
    repaint();
    do {
        take("Run", kamurjesh_run(table, sizeof table, area, sizeof area, 4, &bytes, &reports, &steps));
        print_reports(kamurjesh_read, area, bytes);
        repaint();
        all_steps += steps;
    } while (steps > 0);
    printf(" steps %" PRIu64 "; the book: side yield quantity orders\n", all_steps);
    print_side(KAMURJESH_BUY);
    print_side(KAMURJESH_SELL);
}

static void rehearse(uint64_t mode)
{
    const uint64_t mpids[] = {10, 11, 12, 13, 14};
    const uint64_t modes[] = {mode, mode, mode, mode, mode};
    sent = 0;
    printf("mode %" PRIu64 "\n", mode);
    take("Open", kamurjesh_open(table, sizeof table, (const uint8_t *)"V", 1, (const uint8_t *)"P", 1, (const uint8_t *)"350", 3,
                                1, mpids, 5, modes, 5));
    for (size_t i = 0; i < sizeof book_r / sizeof *book_r; i++)
        trade(&book_r[i]);
    trade(&buy_of_a);
}

/* Sends an order for a share, by cash, and prints the report that answers it and those of its run. */
static void trade_share(const char *cl_ord_id, int side, unsigned quantity, const char *price, unsigned mpid)
{
    char body[512];
    uint8_t message[1024];
    uint64_t length, bytes, reports, steps;
    snprintf(body, sizeof body, "11=%s|21=1|38=%u|40=2|44=%s|47=A|54=%d|55=7203|59=0|60=20260105-09:00:00|109=%u|544=1|8060=1|", cl_ord_id,
             quantity, price, side, mpid);
    size_t n = write_framed(message, sizeof message, body);
    printf(" %s\n", cl_ord_id);
    take("Submit", kamurjesh_equities_submit(table, sizeof table, message, n, area, sizeof area, &length));
    print_reports(kamurjesh_equities_read, area, length);
    take("Run", kamurjesh_equities_run(table, sizeof table, area, sizeof area, 256, &bytes, &reports, &steps));
    print_reports(kamurjesh_equities_read, area, bytes);
}

/* Sell short is side 5 and sells: the book shows it among the sells. */
static void rehearse_share(void)
{
    const uint64_t mpids[] = {10, 11}, modes[] = {KAMURJESH_CANCEL_NEWEST, KAMURJESH_CANCEL_NEWEST};
    uint64_t found, total, orders;
    int64_t tenths;
    sent = 0;
    puts("equities");
    take("Open", kamurjesh_equities_open(table, sizeof table, (const uint8_t *)"V", 1, (const uint8_t *)"P", 1, (const uint8_t *)"7203", 4,
                                         1, mpids, 2, modes, 2));
    trade_share("S-1", 5, 300, "100.1", 11);
    trade_share("B-1", KAMURJESH_BUY, 100, "100.5", 10);
    take("Depth", kamurjesh_equities_depth(table, sizeof table, KAMURJESH_SELL, 0, &found, &tenths, &total, &orders));
    if (found)
        printf(" the best sell: price %" PRId64 ".%" PRId64 ", quantity %" PRIu64 ", orders %" PRIu64 "\n", tenths / 10, tenths % 10, total,
               orders);
}

int main(void)
{
    rehearse(KAMURJESH_CANCEL_NEWEST);
    rehearse(KAMURJESH_CANCEL_OLDEST);
    rehearse(KAMURJESH_DECREMENT);
    rehearse_share();
    return 0;
}
