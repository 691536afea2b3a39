/* driver SCENARIO CALLS: prepares one scenario and, if CALLS is 1, makes its calls once. bench/run counts the instructions of both and
 * takes the difference, so that preparing costs nothing. Exit status 1 where a call answers something else than the scenario means,
 * 2 if there is no such scenario.
 *
 * Open orders of a scenario with N open are sells at N yields, all different, but in depth, where they are 127 buys and 128 sells. The
 * name of a scenario with equities- before it is that scenario on an equities market. */
#include <stdio.h>
#include <stdlib.h>
#include <string.h>

#include "calls.h"
#include "messages.h"

static const struct calls *market = &bond_calls;
static uint8_t table[KAMURJESH_TABLE_BYTES];
static uint8_t area[300000];
static uint8_t image[KAMURJESH_IMAGE_BYTES];
static uint64_t length, bytes, reports, steps;

static void must(int holds)
{
    if (!holds)
        exit(1);
}

/* With five MPIDs, all of one mode. */
static uint64_t open_with(uint64_t mode)
{
    static const uint64_t mpids[] = {10, 11, 12, 13, 14};
    const uint64_t modes[] = {mode, mode, mode, mode, mode};
    const char *code = market == &bond_calls ? "350" : "7203.T";
    return market->open(table, sizeof table, (const uint8_t *)"V", 1, (const uint8_t *)"P", 1, (const uint8_t *)code, strlen(code), 1,
                        mpids, 5, modes, 5);
}

static uint64_t open_market(void)
{
    return open_with(1);
}

static uint64_t submit(const struct message *m)
{
    return market->submit(table, sizeof table, m->bytes, m->length, area, sizeof area, &length);
}

static uint64_t run_steps(uint64_t budget)
{
    return market->run(table, sizeof table, area, sizeof area, budget, &bytes, &reports, &steps);
}

static uint64_t run(void)
{
    return run_steps(1000);
}

/* A Day order at a yield, or on an equities market at a price. */
static struct message order(const char *id, int side, unsigned long quantity, const char *yield, const char *price, unsigned mpid)
{
    return market == &bond_calls ? new_order(id, side, quantity, yield, mpid, '0')
                                 : share_order(id, side, quantity, price, mpid, '0', 1, 0);
}

/* The n-th order of one side: 100 at a yield or a price of its own, with a ClOrdID of 12 characters. */
static struct message nth(unsigned n, int side)
{
    char id[32], yield[32], price[32];
    unsigned tenths = side == KAMURJESH_SELL ? 5000 - n : n;
    snprintf(id, sizeof id, "ORDER-%06u", n);
    snprintf(yield, sizeof yield, side == KAMURJESH_SELL ? "0.%03u" : "1.%03u", n);
    snprintf(price, sizeof price, "%u.%u", tenths / 10, tenths % 10);
    return order(id, side, 100, yield, price, side == KAMURJESH_SELL ? 11 : 12);
}

static void enter(struct message m)
{
    must(submit(&m) == 0);
    must(run() == 0);
}

static void enter_sells(unsigned from, unsigned to)
{
    for (unsigned i = from; i <= to; i++)
        enter(nth(i, KAMURJESH_SELL));
}

/* ---- scenarios: each prepares, and then makes its calls or not */

static void opening(int calls)
{
    if (calls)
        must(open_market() == 0);
}

static void submitting(unsigned n, int calls)
{
    struct message m = nth(n + 1, KAMURJESH_SELL);
    must(open_market() == 0);
    enter_sells(1, n);
    if (calls)
        must(submit(&m) == 0);
}

static void running(unsigned n, int calls)
{
    struct message m = nth(n + 1, KAMURJESH_SELL);
    must(open_market() == 0);
    enter_sells(1, n);
    must(submit(&m) == 0);
    if (calls)
        must(run() == 0 && steps == 1 && reports == 0);
}

/* A load of n orders that rest, where so many are open. */
static void loading(unsigned n, unsigned open, int calls)
{
    static uint8_t buffer[100000];
    size_t size = 0;
    uint64_t place, finished;
    for (unsigned i = 1; i <= n; i++) {
        struct message m = nth(open + i, KAMURJESH_SELL);
        memcpy(buffer + size, m.bytes, m.length);
        size += m.length;
    }
    must(open_market() == 0);
    enter_sells(1, open);
    if (calls)
        must(market->load(table, sizeof table, buffer, size, area, sizeof area, &place, &finished, &bytes, &reports) == 0 &&
             place == size && finished == n && reports == n);
}

/* An order that trades with n resting ones and ends. */
static void sweeping(unsigned n, int calls)
{
    struct message m = order("SWEEP", KAMURJESH_BUY, 100 * n, "0.000", "500.0", 12);
    must(open_market() == 0);
    enter_sells(1, n);
    must(submit(&m) == 0);
    if (calls)
        must(run() == 0 && steps == n + 1 && reports == 2 * n);
}

/* The first step of an IOC that meets n resting sells, every second of them of its own MPID unless the mode is 1: with a minimum that it
 * reaches it is decided first. */
static void deciding(unsigned n, uint64_t mode, unsigned long least, int calls)
{
    struct message m = order_with("FIRST", KAMURJESH_BUY, 100 * n, "0.000", 12, '3', least);
    must(open_with(mode) == 0);
    for (unsigned i = 1; i <= n; i++) {
        struct message s = nth(i, KAMURJESH_SELL);
        if (mode != 1 && i % 2 == 1) {
            char id[32], yield[32];
            snprintf(id, sizeof id, "ORDER-%06u", i);
            snprintf(yield, sizeof yield, "0.%03u", i);
            s = new_order(id, KAMURJESH_SELL, 100, yield, 12, '0');
        }
        enter(s);
    }
    must(submit(&m) == 0);
    if (calls)
        must(run_steps(1) == 0 && steps == 1 && reports == 2);
}

/* 128 sells and 127 buys. */
static void enter_both(void)
{
    must(open_market() == 0);
    enter_sells(1, 128);
    for (unsigned i = 129; i <= 255; i++)
        enter(nth(i, KAMURJESH_BUY));
}

/* The best level of a side, from the heading. */
static void topping(unsigned n, int calls)
{
    uint64_t found, total, orders;
    int64_t yield;
    if (n == 0)
        must(open_market() == 0);
    else
        enter_both();
    if (calls)
        must(market->top(table, sizeof table, KAMURJESH_BUY, &found, &yield, &total, &orders) == 0 && found == (n > 0) &&
             orders == (n > 0));
}

static void depth(uint64_t k, int calls)
{
    uint64_t found, total, orders;
    int64_t yield;
    enter_both();
    if (calls)
        must(market->depth(table, sizeof table, KAMURJESH_BUY, k, &found, &yield, &total, &orders) == 0 && found == 1 &&
             total == 100 && orders == 1);
}

/* A level of n sells, all apart: the best, or the last. */
static void depth_of(unsigned n, uint64_t k, int calls)
{
    uint64_t found, total, orders;
    int64_t yield;
    must(open_market() == 0);
    enter_sells(1, n);
    if (calls)
        must(market->depth(table, sizeof table, KAMURJESH_SELL, k, &found, &yield, &total, &orders) == 0 && found == (n > 0));
}

/* The second report of a trade: that of the order in work. */
static const uint8_t *trade_report(size_t *size)
{
    struct message m = order("BUY", KAMURJESH_BUY, 50, "0.001", "499.9", 12);
    uint64_t start, digits;
    must(open_market() == 0);
    enter_sells(1, 1);
    enter(m);
    must(reports == 2);
    must(kamurjesh_field(area, bytes, 9, &start, &digits) == 1);
    size_t first = (size_t)(start + digits) + 8 + strtoul((const char *)area + start, NULL, 10);
    *size = bytes - first;
    return area + first;
}

static void reading(int calls)
{
    size_t size;
    uint64_t kind;
    const uint8_t *report = trade_report(&size);
    if (calls)
        must(market->read(report, size, &kind) == 0 && kind == KAMURJESH_IS_TRADE);
}

static void finding(int calls)
{
    size_t size;
    uint64_t start, digits;
    const uint8_t *report = trade_report(&size);
    if (calls)
        must(kamurjesh_field(report, size, 8060, &start, &digits) == 1);
}

/* A full feed that shows both identifiers; its area is the shortest that it takes. */
static void copying(int calls)
{
    static uint8_t copy[KAMURJESH_LEAST_AREA];
    size_t size;
    uint64_t after;
    const uint8_t *report = trade_report(&size);
    if (calls)
        must(market->copy(report, size, KAMURJESH_FULL, KAMURJESH_SHOWS_BOTH, (const uint8_t *)"PORT-1", 6, (const uint8_t *)"GROUP-7", 7,
                          1, copy, sizeof copy, &length, &after) == 0 &&
             length > size && after == 2);
}

/* A message of n bytes: the header, and fields of ten bytes or so behind it. */
static struct message of_length(size_t n)
{
    char body[1100] = "";
    struct message m = sent(n == 64 ? "DD" : "D", body);
    for (int tag = 200; m.length < n; tag++) {
        size_t end = strlen(body), room = n - m.length;
        for (int value = room < 20 ? (int)room - 5 : 6; value >= 0; value--) {
            snprintf(body + end, sizeof body - end, "%d=%.*s|", tag, value, "abcdefghijklmno");
            m = sent("D", body);
            if (room >= 20 || m.length == n)
                break;
        }
    }
    must(m.length == n);
    return m;
}

/* A message of n bytes whose CheckSum is not true. */
static void garbling(unsigned n, int calls)
{
    struct message m = of_length(n);
    m.bytes[n - 2] ^= 1;
    must(open_market() == 0);
    if (calls)
        must(submit(&m) == 5);
}

/* The n-th sell: with no account, with an account of 10 characters, or with one of 8 and a ClOrdID of 13. */
static struct message plain(unsigned n)
{
    return nth(n, KAMURJESH_SELL);
}

static struct message with_account(unsigned n, const char *account, const char *id)
{
    char body[600];
    snprintf(body, sizeof body, "1=%s|11=%s|21=1|38=100|40=2|44=0.%03u|47=A|54=2|55=350|59=0|60=20260105-09:00:00|109=11|8060=1|", account, id, n);
    return sent("D", body);
}

static struct message with_account_of_10(unsigned n)
{
    char account[32], id[32];
    snprintf(account, sizeof account, "ACCOUNT-%02u", n % 100);
    snprintf(id, sizeof id, "ORDER-%06u", n);
    return with_account(n, account, id);
}

static struct message with_id_of_13(unsigned n)
{
    char account[32], id[32];
    snprintf(account, sizeof account, "DESK%04u", n);
    snprintf(id, sizeof id, "ORDER-%07u", n);
    return with_account(n, account, id);
}

/* The n-th sell with a ClOrdID of 32 characters, chosen so that all have one key in the check, and each comes before those there: what the
 * third eight characters gain, the last eight lose. */
static struct message with_chosen_id(unsigned n)
{
    char id[64];
    int low = (int)(n % 16), high = (int)(n / 16);
    snprintf(id, sizeof id, "CHOSEN-ORDER-ID-AAAAAA%c%cZZZZZZ%c%c", 'A' + low, 'A' + high, 'Z' - low, 'Z' - high);
    return with_account(n, "DESK0001", id);
}

/* The check of the table as it is, alone: there is no such side, and where the table is a market that is refused. */
static void checked(uint64_t refusal)
{
    uint64_t found, total, orders;
    int64_t yield;
    must(market->depth(table, sizeof table, 3, 0, &found, &yield, &total, &orders) == refusal);
}

/* The check of a table with n open orders. */
static void checking(unsigned n, struct message (*sell)(unsigned), int calls)
{
    must(open_market() == 0);
    for (unsigned i = 1; i <= n; i++)
        enter(sell(i));
    if (calls)
        checked(10);
}

/* The same with chosen ClOrdIDs, the last of them forged to be the first: no market. */
static void checking_twice(unsigned n, int calls)
{
    checking(n, with_chosen_id, 0);
    memcpy(table + 128 * n, table + 128, 33);
    if (calls)
        checked(2);
}

/* The same with chosen ClOrdIDs, and places and OrderIDs forged to be 2,048 apart: still a market. */
static void checking_forged(unsigned n, int calls)
{
    const uint32_t next = 1000000;
    checking(n, with_chosen_id, 0);
    for (uint32_t i = 1; i <= n; i++) {
        const uint32_t number = 1 + 2048 * i;
        memcpy(table + 128 * i + 56, &number, 4);
        memcpy(table + 128 * i + 84, &number, 4);
    }
    memcpy(table + 28, &next, 4);
    if (calls)
        checked(10);
}

/* A market with n open orders, written into its image. */
static void saving(unsigned n, int calls)
{
    must(open_market() == 0);
    enter_sells(1, n);
    if (calls)
        must(market->save(table, sizeof table, image, sizeof image) == 0);
}

/* The same, read back. */
static void restoring(unsigned n, int calls)
{
    uint64_t block;
    saving(n, 1);
    if (calls)
        must(market->restore(table, sizeof table, image, sizeof image, &block) == 0);
}

int main(int count, char **words)
{
    if (count != 3)
        return 2;
    const char *name = words[1];
    int calls = words[2][0] == '1';
    unsigned n;
    char rest;
    if (strncmp(name, "equities-", 9) == 0) {
        market = &equities_calls;
        name += 9;
    }
    int bonds = market == &bond_calls;
    if (strcmp(name, "open") == 0)
        opening(calls);
    else if (sscanf(name, "submit-%u%c", &n, &rest) == 1 && n <= 254)
        submitting(n, calls);
    else if (sscanf(name, "run-%u%c", &n, &rest) == 1 && n <= 254)
        running(n, calls);
    else if (sscanf(name, "load-%u%c", &n, &rest) == 1 && n >= 1 && n <= 254)
        loading(n, 0, calls);
    else if (sscanf(name, "load-open-%u%c", &n, &rest) == 1 && n <= 254)
        loading(1, n, calls);
    else if (sscanf(name, "save-%u%c", &n, &rest) == 1 && n <= 254)
        saving(n, calls);
    else if (sscanf(name, "restore-%u%c", &n, &rest) == 1 && n <= 254)
        restoring(n, calls);
    else if (sscanf(name, "sweep-%u%c", &n, &rest) == 1 && n >= 1 && n <= 254)
        sweeping(n, calls);
    else if (bonds && sscanf(name, "first-%u%c", &n, &rest) == 1 && n >= 2 && n <= 254)
        deciding(n, 1, 0, calls);
    else if (bonds && sscanf(name, "decide-%u%c", &n, &rest) == 1 && n >= 2 && n <= 254)
        deciding(n, 1, 100 * n, calls);
    else if (bonds && sscanf(name, "decide-oldest-%u%c", &n, &rest) == 1 && n >= 2 && n <= 254)
        deciding(n, 2, 50 * (n / 2), calls);
    else if (bonds && sscanf(name, "decide-lowered-%u%c", &n, &rest) == 1 && n >= 2 && n <= 254)
        deciding(n, 3, 50 * (n / 2), calls);
    else if (sscanf(name, "top-%u%c", &n, &rest) == 1 && (n == 0 || n == 255))
        topping(n, calls);
    else if (sscanf(name, "depth-%u%c", &n, &rest) == 1 && n <= 126)
        depth(n, calls);
    else if (sscanf(name, "depth-first-%u%c", &n, &rest) == 1 && n <= 254)
        depth_of(n, 0, calls);
    else if (sscanf(name, "depth-last-%u%c", &n, &rest) == 1 && n >= 1 && n <= 254)
        depth_of(n, n - 1, calls);
    else if (sscanf(name, "garbled-%u%c", &n, &rest) == 1 && n >= 64 && n <= 1024)
        garbling(n, calls);
    else if (sscanf(name, "check-%u%c", &n, &rest) == 1 && n <= 254)
        checking(n, plain, calls);
    else if (bonds && sscanf(name, "check-accounts-%u%c", &n, &rest) == 1 && n <= 254)
        checking(n, with_account_of_10, calls);
    else if (bonds && sscanf(name, "check-ids13-%u%c", &n, &rest) == 1 && n <= 254)
        checking(n, with_id_of_13, calls);
    else if (bonds && sscanf(name, "check-chosen-%u%c", &n, &rest) == 1 && n <= 254)
        checking(n, with_chosen_id, calls);
    else if (bonds && sscanf(name, "check-twice-%u%c", &n, &rest) == 1 && n >= 2 && n <= 254)
        checking_twice(n, calls);
    else if (bonds && sscanf(name, "check-forged-%u%c", &n, &rest) == 1 && n <= 254)
        checking_forged(n, calls);
    else if (strcmp(name, "read") == 0)
        reading(calls);
    else if (strcmp(name, "field") == 0)
        finding(calls);
    else if (strcmp(name, "copy") == 0)
        copying(calls);
    else
        return 2;
    return 0;
}
