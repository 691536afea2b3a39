/* Tests of the C interface: every function with good and bad input, every refusal from 1 to 11 and 17, first of the bond market, then of
 * the equities market, and around every call the bytes that it must leave alone. Prints what failed and, last, how many checks there were; exit status 1 if any failed. */
#include <inttypes.h>
#include <stdio.h>
#include <stdlib.h>
#include <string.h>

#include "calls.h"
#include "messages.h"

/* ---- checks */

static unsigned checks, failures;

static void expect_at(int line, const char *what, int holds)
{
    checks++;
    if (!holds) {
        failures++;
        printf("line %d: not so: %s\n", line, what);
    }
}
#define EXPECT(fact) expect_at(__LINE__, #fact, (fact))

/* ---- lent buffers, each between guard bytes */

enum { GUARD = 64, TABLE = KAMURJESH_TABLE_BYTES, AREA = 8192 };
#define GUARDED 0x5a
#define UNTOUCHED 0xa7

struct lent {
    uint8_t all[GUARD + TABLE + 1 + GUARD];
};

static struct lent lent_table, lent_area, kept;
static uint8_t *const table = lent_table.all + GUARD;
static uint8_t *const area = lent_area.all + GUARD;

/* Guard bytes everywhere but for the given number of bytes. */
static void guard(struct lent *l, size_t length)
{
    memset(l->all, GUARDED, GUARD);
    memset(l->all + GUARD + length, GUARDED, sizeof l->all - GUARD - length);
}

static int is_guarded(const struct lent *l, size_t length)
{
    for (size_t i = 0; i < sizeof l->all; i++)
        if ((i < GUARD || i >= GUARD + length) && l->all[i] != GUARDED)
            return 0;
    return 1;
}

/* An out value between guards, with a value that no call gives. */
struct out {
    uint64_t before, value, after;
};
static const struct out fresh = {0x5a5a5a5a5a5a5a5a, 0xa7a7a7a7a7a7a7a7, 0x5a5a5a5a5a5a5a5a};

static int is_fine(const struct out *o)
{
    return o->before == fresh.before && o->after == fresh.after && o->value != fresh.value;
}

static void keep_table(void)
{
    memcpy(kept.all, lent_table.all, sizeof kept.all);
}

static int table_is_kept(void)
{
    return memcmp(kept.all, lent_table.all, sizeof kept.all) == 0;
}

/* The next report number, bytes 28 to 31 of a table. */
static uint64_t number_in(const uint8_t *t)
{
    return t[28] | (uint64_t)t[29] << 8 | (uint64_t)t[30] << 16 | (uint64_t)t[31] << 24;
}

static uint64_t next_number(void)
{
    return number_in(table);
}

/* Whether the table is the one kept, but for the next number, which is one more. */
static int only_number_rose(void)
{
    uint64_t now = next_number();
    uint8_t changed[4];
    memcpy(changed, table + 28, 4);
    memcpy(table + 28, kept.all + GUARD + 28, 4);
    int so = table_is_kept() && next_number() + 1 == now;
    memcpy(table + 28, changed, 4);
    return so;
}

/* ---- the calls of one market or of the other, with all that holds around every call of theirs */

static const struct calls *calls = &bond_calls;

struct settings {
    const char *venue, *port, *code;
    uint64_t first;
    uint64_t mpids[10], modes[10];
    size_t mpids_count, modes_count;
};

static const struct settings usual = {"V", "P", "350", 1, {10, 11, 12, 13, 14}, {1, 1, 1, 1, 1}, 5, 5};

static uint64_t open_in(size_t length, const struct settings *s)
{
    struct settings before = *s;
    guard(&lent_table, length);
    keep_table();
    uint64_t number = calls->open(table, length, (const uint8_t *)s->venue, strlen(s->venue), (const uint8_t *)s->port,
                                  strlen(s->port), (const uint8_t *)s->code, strlen(s->code), s->first, s->mpids,
                                  s->mpids_count, s->modes, s->modes_count);
    EXPECT(is_guarded(&lent_table, length));
    EXPECT(memcmp(&before, s, sizeof before) == 0);
    EXPECT(number == 0 || number == 9);
    EXPECT(number == 0 || table_is_kept());
    return number;
}

static uint64_t open_usual(uint64_t mode)
{
    struct settings s = usual;
    for (size_t i = 0; i < s.modes_count; i++)
        s.modes[i] = mode;
    return open_in(TABLE, &s);
}

static int area_is_untouched_from(size_t written, size_t length)
{
    for (size_t i = written; i < length; i++)
        if (area[i] != UNTOUCHED)
            return 0;
    return is_guarded(&lent_area, length);
}

static void lend_area(size_t length)
{
    memset(area, UNTOUCHED, length);
    guard(&lent_area, length);
}

static uint64_t report_length;

static uint64_t submit_in(size_t table_length, size_t area_length, const uint8_t *message, size_t message_length)
{
    static uint8_t copy[2048];
    struct out length = fresh;
    if (message_length > 0)
        memcpy(copy, message, message_length);
    lend_area(area_length);
    keep_table();
    uint64_t number = calls->submit(table, table_length, message, message_length, area, area_length, &length.value);
    EXPECT(is_fine(&length));
    EXPECT(message_length == 0 || memcmp(copy, message, message_length) == 0);
    EXPECT(area_is_untouched_from((size_t)length.value, area_length));
    EXPECT(is_guarded(&lent_table, TABLE));
    EXPECT(number <= 8);
    EXPECT(length.value <= KAMURJESH_LONGEST_REPORT);
    EXPECT((number >= 1 && number <= 5) == (length.value == 0));
    EXPECT(length.value > 0 || table_is_kept());
    EXPECT(number < 6 || only_number_rose());
    EXPECT(number != 0 || next_number() == number_in(kept.all + GUARD) + 1);
    report_length = length.value;
    return number;
}

static uint64_t submit(struct message m)
{
    return submit_in(TABLE, AREA, m.bytes, m.length);
}

static struct {
    uint64_t bytes, reports, steps;
} ran;

static uint64_t run_in(size_t table_length, size_t area_length, uint64_t budget)
{
    struct out bytes = fresh, reports = fresh, steps = fresh;
    lend_area(area_length);
    keep_table();
    uint64_t number =
        calls->run(table, table_length, area, area_length, budget, &bytes.value, &reports.value, &steps.value);
    EXPECT(is_fine(&bytes) && is_fine(&reports) && is_fine(&steps));
    EXPECT(area_is_untouched_from((size_t)bytes.value, area_length));
    EXPECT(is_guarded(&lent_table, TABLE));
    EXPECT(number <= 2);
    EXPECT(number == 0 || (bytes.value == 0 && reports.value == 0 && steps.value == 0));
    EXPECT(steps.value <= budget && reports.value <= 2 * steps.value);
    EXPECT(steps.value > 0 || table_is_kept());
    ran.bytes = bytes.value;
    ran.reports = reports.value;
    ran.steps = steps.value;
    return number;
}

static uint64_t run(void)
{
    return run_in(TABLE, AREA, 1000);
}

/* Submits an order that is taken and runs it to its end. */
static void enter(struct message m)
{
    EXPECT(submit(m) == 0);
    EXPECT(run() == 0);
}

/* quote: a yield in thousandths or a price in tenths */
static struct {
    uint64_t found;
    int64_t quote;
    uint64_t total, orders;
} level;

/* What Depth answers, or where no k is given what top of book does. */
static uint64_t level_in(size_t table_length, uint64_t side, const uint64_t *k)
{
    struct out found = fresh, total = fresh, orders = fresh;
    int64_t quote[3] = {-7777, INT64_MIN, -7777};
    keep_table();
    uint64_t number =
        k != NULL ? calls->depth(table, table_length, side, *k, &found.value, &quote[1], &total.value, &orders.value)
                  : calls->top(table, table_length, side, &found.value, &quote[1], &total.value, &orders.value);
    EXPECT(is_fine(&found) && is_fine(&total) && is_fine(&orders));
    EXPECT(quote[0] == -7777 && quote[2] == -7777 && quote[1] != INT64_MIN);
    EXPECT(table_is_kept());
    EXPECT(number == 0 || number == 2 || number == 3 || number == 10);
    EXPECT(number == 0 || found.value == 0);
    EXPECT(found.value == 1 || (found.value == 0 && quote[1] == 0 && total.value == 0 && orders.value == 0));
    level.found = found.value;
    level.quote = quote[1];
    level.total = total.value;
    level.orders = orders.value;
    return number;
}

static uint64_t depth_in(size_t table_length, uint64_t side, uint64_t k)
{
    return level_in(table_length, side, &k);
}

static uint64_t top_in(size_t table_length, uint64_t side)
{
    return level_in(table_length, side, NULL);
}

/* Whether top of book gives this level. */
static int top_is(uint64_t side, int64_t quote, uint64_t total, uint64_t orders)
{
    return top_in(TABLE, side) == 0 && level.found == 1 && level.quote == quote && level.total == total && level.orders == orders;
}

/* Whether Depth gives this level, or none, and for k = 0 top of book does too. */
static int level_is(uint64_t side, uint64_t k, int64_t quote, uint64_t total, uint64_t orders)
{
    return depth_in(TABLE, side, k) == 0 && level.found == 1 && level.quote == quote && level.total == total &&
           level.orders == orders && (k > 0 || top_is(side, quote, total, orders));
}

static int no_level(uint64_t side, uint64_t k)
{
    return depth_in(TABLE, side, k) == 0 && level.found == 0 && (k > 0 || (top_in(TABLE, side) == 0 && level.found == 0));
}

/* The kind of a report, 0 if it is refused. */
static uint64_t kind_of(const uint8_t *report, size_t length)
{
    struct out kind = fresh;
    uint64_t number = calls->read(report, length, &kind.value);
    EXPECT(is_fine(&kind));
    EXPECT((number == 11) == (kind.value == 0));
    EXPECT(number == 0 || number == 11);
    return kind.value;
}

/* Whether the field of a tag has this value; NULL: whether it is absent. */
static int field_is(const uint8_t *report, size_t length, uint64_t tag, const char *value)
{
    struct out start = fresh, size = fresh;
    uint64_t there = kamurjesh_field(report, length, tag, &start.value, &size.value);
    EXPECT(is_fine(&start) && is_fine(&size));
    EXPECT(there <= 1);
    if (there == 0)
        return value == NULL && start.value == 0 && size.value == 0;
    EXPECT(start.value <= length && size.value <= length - start.value);
    return value != NULL && size.value == strlen(value) && memcmp(report + start.value, value, size.value) == 0;
}

/* The same of the report that Submit has just written. */
static int says(uint64_t tag, const char *value)
{
    return field_is(area, (size_t)report_length, tag, value);
}

/* The report of the given number (from 0) among those that Run has just written. */
static struct message ran_report(unsigned number)
{
    struct message m = {{0}, 0};
    size_t at = 0;
    for (;;) {
        uint64_t start = 0, digits = 0;
        EXPECT(kamurjesh_field(area + at, (size_t)ran.bytes - at, 9, &start, &digits) == 1);
        size_t length = (size_t)(start + digits) + 8 + strtoul((const char *)area + at + start, NULL, 10);
        if (number-- == 0) {
            memcpy(m.bytes, area + at, length);
            m.length = length;
            return m;
        }
        at += length;
    }
}

/* ---- Open */

static void test_open(void)
{
    static uint8_t first[TABLE];
    struct settings s = usual;
    memset(table, 0, TABLE);
    EXPECT(open_in(TABLE, &s) == 0);
    memcpy(first, table, TABLE);
    memset(table, 0xff, TABLE);
    EXPECT(open_in(TABLE, &s) == 0);
    EXPECT(memcmp(first, table, TABLE) == 0); /* nothing of what was there is left */
    EXPECT(next_number() == 1);
    EXPECT(no_level(1, 0) && no_level(2, 0));

    s.venue = "!~!~!~!~", s.port = "a", s.code = "000000000", s.first = 999999999;
    EXPECT(open_in(TABLE, &s) == 0);
    s.mpids[0] = 1, s.mpids[1] = 999999;
    EXPECT(open_in(TABLE, &s) == 0);
    for (size_t i = 0; i < 10; i++)
        s.mpids[i] = 100 + i, s.modes[i] = 1 + i % 3;
    s.mpids_count = s.modes_count = 8;
    EXPECT(open_in(TABLE, &s) == 0);
    s.mpids_count = s.modes_count = 1;
    EXPECT(open_in(TABLE, &s) == 0);
}

static void test_open_refused(void)
{
    const struct {
        const char *venue, *port, *code;
    } names[] = {{"", "P", "350"},  {"V", "", "350"},  {"V", "P", ""},         {"123456789", "P", "350"}, {"V", "123456789", "350"},
                 {"V W", "P", "350"}, {"V", "\x7f", "350"}, {"V", "P", "1234567890"}, {"V", "P", "35a"},        {"V", "P\001", "350"}};
    struct settings s = usual;
    EXPECT(open_in(TABLE, &s) == 0);
    EXPECT(open_in(TABLE - 1, &s) == 9);
    EXPECT(open_in(TABLE + 1, &s) == 9);
    EXPECT(open_in(0, &s) == 9);
    for (size_t i = 0; i < sizeof names / sizeof *names; i++) {
        s = usual;
        s.venue = names[i].venue, s.port = names[i].port, s.code = names[i].code;
        EXPECT(open_in(TABLE, &s) == 9);
    }
    const uint64_t firsts[] = {0, 1000000000, UINT64_MAX};
    const uint64_t mpids[] = {0, 1000000, UINT64_MAX, 10 /* also the second entry's */};
    const uint64_t modes[] = {0, 4, 256 + 1, UINT64_MAX};
    for (size_t i = 0; i < 3; i++) {
        s = usual, s.first = firsts[i];
        EXPECT(open_in(TABLE, &s) == 9);
    }
    for (size_t i = 0; i < 4; i++) {
        s = usual, s.mpids[1] = mpids[i];
        EXPECT(open_in(TABLE, &s) == 9);
        s = usual, s.modes[4] = modes[i];
        EXPECT(open_in(TABLE, &s) == 9);
    }
    const size_t counts[][2] = {{0, 0}, {9, 9}, {5, 4}, {4, 5}, {0, 5}, {5, 0}};
    for (size_t i = 0; i < 6; i++) {
        s = usual, s.mpids_count = counts[i][0], s.modes_count = counts[i][1];
        for (size_t j = 5; j < 10; j++)
            s.mpids[j] = 100 + j, s.modes[j] = 2;
        EXPECT(open_in(TABLE, &s) == 9);
    }
    /* lengths of 0 with no pointer */
    keep_table();
    EXPECT(kamurjesh_open(NULL, 0, NULL, 0, NULL, 0, NULL, 0, 1, NULL, 0, NULL, 0) == 9);
    EXPECT(kamurjesh_open(table, TABLE, NULL, 0, NULL, 0, NULL, 0, 1, NULL, 0, NULL, 0) == 9);
    EXPECT(table_is_kept());
}

/* ---- Submit */

static void test_submit_taken(void)
{
    EXPECT(open_usual(1) == 0);
    EXPECT(submit(new_order("A-1", 1, 500, "-0.005", 10, '0')) == 0);
    EXPECT(kind_of(area, (size_t)report_length) == KAMURJESH_IS_ACCEPTED);
    EXPECT(says(8, "FIX.4.2") && says(35, "8") && says(34, "1") && says(49, "V") && says(56, "P") && says(50, "DJGB"));
    EXPECT(says(11, "A-1") && says(17, "1") && says(37, "1") && says(38, "500") && says(44, "-0.005") && says(151, "500"));
    EXPECT(says(109, "10") && says(6, "0.000000") && says(1, NULL) && says(41, NULL) && says(60, "20260105-09:00:01"));
    EXPECT(run() == 0);
    EXPECT(ran.bytes == 0 && ran.reports == 0 && ran.steps == 1);
    EXPECT(level_is(1, 0, -5, 500, 1));

    EXPECT(submit(replacement("A-2", "A-1", 1, 700, "0.000")) == 0);
    EXPECT(kind_of(area, (size_t)report_length) == KAMURJESH_IS_REPLACED);
    EXPECT(says(11, "A-2") && says(41, "A-1") && says(38, "700") && says(151, "700") && says(39, "5") && says(378, NULL));
    EXPECT(run() == 0 && ran.steps == 1);
    EXPECT(level_is(1, 0, 0, 700, 1));

    EXPECT(submit(cancellation("A-3", "A-2", 1)) == 0);
    EXPECT(kind_of(area, (size_t)report_length) == KAMURJESH_IS_CANCELED);
    EXPECT(says(11, "A-3") && says(41, "A-2") && says(151, "0") && says(39, "4"));
    EXPECT(run() == 0 && ran.steps == 0); /* a cancel leaves nothing in work */
    EXPECT(no_level(1, 0));
}

static void test_submit_unreported(void)
{
    struct message good = new_order("A-1", 1, 500, "0.100", 10, '0');
    struct settings s = usual;
    EXPECT(open_usual(1) == 0);
    /* 1 before all others */
    EXPECT(submit_in(TABLE, 1023, good.bytes, good.length) == 1);
    EXPECT(submit_in(TABLE, 0, good.bytes, good.length) == 1);
    EXPECT(submit_in(TABLE - 1, 1023, good.bytes, good.length) == 1);
    struct out length = fresh;
    EXPECT(kamurjesh_submit(NULL, 0, NULL, 0, NULL, 0, &length.value) == 1 && is_fine(&length) && length.value == 0);
    /* 2 */
    EXPECT(submit_in(TABLE - 1, 1024, good.bytes, good.length) == 2);
    EXPECT(submit_in(0, 1024, good.bytes, good.length) == 2);
    const size_t places[] = {0, 9, 18, 31, 32, 33, 55, 59, 88, 96, 127, 128, 200, 32767};
    for (size_t i = 0; i < sizeof places / sizeof *places; i++) {
        uint8_t was = table[places[i]];
        table[places[i]] = 0xff;
        EXPECT(submit(good) == 2);
        table[places[i]] = was;
    }
    /* 5 */
    EXPECT(submit_in(TABLE, AREA, NULL, 0) == 5);
    EXPECT(submit_in(TABLE, AREA, good.bytes, good.length - 1) == 5);
    struct message bad = good;
    bad.bytes[bad.length - 2] ^= 1; /* CheckSum */
    EXPECT(submit(bad) == 5);
    static uint8_t longer[1025];
    memset(longer, 'x', sizeof longer);
    EXPECT(submit_in(TABLE, AREA, longer, sizeof longer) == 5);
    /* the shortest area, and 3 while the order is in work, even where the message is garbled */
    EXPECT(submit_in(TABLE, 1024, good.bytes, good.length) == 0);
    EXPECT(submit(good) == 3);
    EXPECT(submit(bad) == 3);
    EXPECT(submit_in(TABLE, 1023, good.bytes, good.length) == 1);
    /* 4 before 5 */
    s.first = 999998976;
    EXPECT(open_in(TABLE, &s) == 0);
    EXPECT(submit(bad) == 5);
    EXPECT(submit(good) == 0);
    EXPECT(run() == 0);
    EXPECT(submit(good) == 4);
    EXPECT(submit(bad) == 4);
}

static void test_submit_reported(void)
{
    EXPECT(open_usual(1) == 0);
    /* 6 */
    EXPECT(submit(sent("A", "98=0|108=30|")) == 6);
    EXPECT(kind_of(area, (size_t)report_length) == KAMURJESH_IS_SESSION_REJECT);
    EXPECT(says(45, "7") && says(371, "35") && says(372, "A") && says(373, "11") && says(34, "1") && says(17, NULL));
    EXPECT(submit(new_order("A-1", 1, 0, "0.100", 10, '0')) == 6);
    EXPECT(says(371, "38") && says(373, "5") && says(34, "2"));
    EXPECT(submit(new_order("A-1", 3, 5, "0.100", 10, '0')) == 6 && says(371, "54"));
    EXPECT(submit(new_order("A-1", 1, 5, "0.1000", 10, '0')) == 6 && says(371, "44") && says(373, "6"));
    /* 7 */
    EXPECT(submit(new_order("A-1", 1, 5, "0.100", 99, '0')) == 7);
    EXPECT(kind_of(area, (size_t)report_length) == KAMURJESH_IS_REJECTED);
    EXPECT(says(103, "99") && says(37, "NONE") && says(39, "8") && says(38, "5"));
    enter(new_order("A-1", 1, 5, "0.100", 10, '0'));
    EXPECT(submit(new_order("A-1", 1, 5, "0.100", 10, '0')) == 7 && says(103, "6"));
    /* 8 */
    EXPECT(submit(cancellation("A-2", "A-9", 1)) == 8);
    EXPECT(kind_of(area, (size_t)report_length) == KAMURJESH_IS_CANCEL_REJECT);
    EXPECT(says(102, "1") && says(434, "1") && says(37, "NONE") && says(41, "A-9") && says(39, "8"));
    EXPECT(submit(replacement("A-2", "A-1", 2, 5, "0.100")) == 8 && says(102, "2") && says(434, "2") && says(37, "6"));
    EXPECT(submit(cancellation("A-2", "A-1", 1)) == 0);
    EXPECT(submit(cancellation("A-3", "A-2", 1)) == 8 && says(102, "0") && says(39, "4"));
}

/* A new order with this ClOrdID takes this record and no other, and the number of its report is its OrderID. */
static void expect_taken_over(unsigned record, const char *id)
{
    enum { RECORD = 128 };
    const uint8_t *before = kept.all + GUARD;
    size_t behind = (record + 1) * RECORD;
    char number[16];
    snprintf(number, sizeof number, "%" PRIu64, next_number());
    EXPECT(submit(new_order(id, 2, 1, "0.100", 0, '0')) == 0 && says(17, number) && says(37, number));
    EXPECT(memcmp(table + RECORD, before + RECORD, (record - 1) * RECORD) == 0);
    EXPECT(memcmp(table + behind, before + behind, TABLE - behind) == 0);
    EXPECT(table[record * RECORD] == strlen(id) && memcmp(table + record * RECORD + 1, id, strlen(id)) == 0);
    EXPECT(run() == 0 && ran.steps == 1);
}

static void test_full_table(void)
{
    char id[8];
    EXPECT(open_usual(1) == 0);
    for (unsigned i = 1; i <= 255; i++) {
        snprintf(id, sizeof id, "N%u", i);
        enter(new_order(id, 2, 999999999, "999999.999", 0, '0'));
    }
    EXPECT(level_is(2, 0, 999999999, 255ull * 999999999, 255));
    EXPECT(submit(new_order("N256", 2, 1, "0.100", 0, '0')) == 7 && says(103, "0"));
    EXPECT(submit(new_order("N255", 2, 1, "0.100", 0, '0')) == 7 && says(103, "6"));
    EXPECT(submit(replacement("N256", "N255", 2, 1, "-999999.999")) == 0);
    EXPECT(run() == 0 && ran.steps == 1);
    EXPECT(level_is(2, 0, 999999999, 254ull * 999999999, 254) && level_is(2, 1, -999999999, 1, 1));
    /* records with nothing open go to new orders, the lowest-numbered first, and a ClOrdID is free when its order is gone */
    EXPECT(submit(cancellation("C-3", "N3", 2)) == 0 && says(37, "3"));
    EXPECT(submit(cancellation("C-250", "N250", 2)) == 0 && says(37, "250"));
    EXPECT(submit(new_order("C-3", 2, 1, "0.100", 0, '0')) == 7 && says(103, "6"));
    expect_taken_over(3, "O-1");
    expect_taken_over(250, "C-3");
    EXPECT(level_is(2, 1, 100, 2, 2));
    EXPECT(submit(cancellation("C-4", "C-250", 2)) == 8 && says(102, "1") && says(37, "NONE"));
    EXPECT(submit(new_order("O-2", 2, 1, "0.100", 0, '0')) == 7 && says(103, "0"));
}

/* ---- Run */

/* Book R: sells of 100 at 0.101 (MPID 11), then at 0.100 of 200 (12), 200 (10) and 500 (13). */
static void enter_book_r(uint64_t mode)
{
    EXPECT(open_usual(mode) == 0);
    enter(new_order("S-1", 2, 100, "0.101", 11, '0'));
    enter(new_order("S-2", 2, 200, "0.100", 12, '0'));
    enter(new_order("S-3", 2, 200, "0.100", 10, '0'));
    enter(new_order("S-4", 2, 500, "0.100", 13, '0'));
    EXPECT(level_is(2, 0, 101, 100, 1) && level_is(2, 1, 100, 900, 3) && no_level(2, 2) && no_level(1, 0));
}

static void test_run_modes(void)
{
    const struct {
        uint64_t steps, reports, sells_left, buys_left;
    } after[] = {{4, 5, 700, 0}, {5, 7, 0, 400}, {5, 8, 0, 200}};
    for (uint64_t mode = 1; mode <= 3; mode++) {
        enter_book_r(mode);
        EXPECT(submit(new_order("B-1", 1, 1200, "0.100", 10, '0')) == 0);
        EXPECT(run() == 0);
        EXPECT(ran.steps == after[mode - 1].steps && ran.reports == after[mode - 1].reports);
        for (unsigned i = 0; i < ran.reports; i++) {
            struct message m = ran_report(i);
            EXPECT(m.length <= KAMURJESH_LONGEST_REPORT && kind_of(m.bytes, m.length) != 0);
        }
        if (after[mode - 1].sells_left > 0)
            EXPECT(level_is(2, 0, 100, after[mode - 1].sells_left, 2));
        else
            EXPECT(no_level(2, 0));
        if (after[mode - 1].buys_left > 0)
            EXPECT(level_is(1, 0, 100, after[mode - 1].buys_left, 1));
        else
            EXPECT(no_level(1, 0));
    }
}

static void test_run_reports(void)
{
    enter_book_r(3);
    EXPECT(submit(new_order("B-1", 1, 1200, "0.100", 10, '3')) == 0);
    EXPECT(run() == 0 && ran.steps == 5 && ran.reports == 9);
    struct message resting = ran_report(0), in_work = ran_report(1), canceled = ran_report(4), decremented = ran_report(5),
                   rest = ran_report(8);
    EXPECT(kind_of(resting.bytes, resting.length) == KAMURJESH_IS_TRADE);
    EXPECT(field_is(resting.bytes, resting.length, 11, "S-1") && field_is(resting.bytes, resting.length, 851, "1"));
    EXPECT(field_is(resting.bytes, resting.length, 31, "0.101") && field_is(resting.bytes, resting.length, 39, "2"));
    EXPECT(field_is(in_work.bytes, in_work.length, 11, "B-1") && field_is(in_work.bytes, in_work.length, 851, "2"));
    EXPECT(field_is(in_work.bytes, in_work.length, 880, "6") && field_is(in_work.bytes, in_work.length, 34, "7"));
    EXPECT(kind_of(canceled.bytes, canceled.length) == KAMURJESH_IS_CANCELED);
    EXPECT(field_is(canceled.bytes, canceled.length, 378, "100") && field_is(canceled.bytes, canceled.length, 11, "S-3"));
    EXPECT(kind_of(decremented.bytes, decremented.length) == KAMURJESH_IS_REPLACED);
    EXPECT(field_is(decremented.bytes, decremented.length, 38, "1200") && field_is(decremented.bytes, decremented.length, 151, "700"));
    EXPECT(kind_of(rest.bytes, rest.length) == KAMURJESH_IS_CANCELED);
    EXPECT(field_is(rest.bytes, rest.length, 378, "99") && field_is(rest.bytes, rest.length, 14, "800"));
}

/* One step and one report, a cancel of the whole order, and book R as it was. */
static void expect_killed(const char *id, const char *tif)
{
    EXPECT(run() == 0 && ran.steps == 1 && ran.reports == 1);
    struct message killed = ran_report(0);
    EXPECT(kind_of(killed.bytes, killed.length) == KAMURJESH_IS_CANCELED);
    EXPECT(field_is(killed.bytes, killed.length, 11, id) && field_is(killed.bytes, killed.length, 59, tif));
    EXPECT(field_is(killed.bytes, killed.length, 378, "99") && field_is(killed.bytes, killed.length, 151, "0"));
    EXPECT(level_is(2, 0, 101, 100, 1) && level_is(2, 1, 100, 900, 3) && no_level(1, 0));
}

static void test_minimums(void)
{
    enter_book_r(3);
    EXPECT(submit(order_with("B-1", 1, 1200, "0.100", 10, '3', 801)) == 0 && says(59, "3") && says(110, "801"));
    expect_killed("B-1", "3");
    EXPECT(submit(new_order("B-2", 1, 1200, "0.100", 14, '4')) == 0 && says(59, "4"));
    expect_killed("B-2", "4");
    /* refused: on a Day order, beside 59=4, above 38 */
    EXPECT(submit(order_with("B-3", 1, 1200, "0.100", 10, '0', 1)) == 6 && says(373, "5") && says(371, "110"));
    EXPECT(submit(order_with("B-3", 1, 1200, "0.100", 10, '4', 1)) == 6 && says(373, "5") && says(371, "110"));
    EXPECT(submit(order_with("B-3", 1, 1200, "0.100", 10, '3', 1201)) == 6 && says(373, "5") && says(371, "110"));
    /* reached: what the first step decides holds for the calls after it */
    EXPECT(submit(order_with("B-3", 1, 1200, "0.100", 10, '3', 800)) == 0);
    for (unsigned i = 0; i < 4; i++)
        EXPECT(run_in(TABLE, AREA, 1) == 0 && ran.steps == 1 && ran.reports == 2);
    EXPECT(run() == 0 && ran.steps == 1 && ran.reports == 1 && no_level(1, 0) && no_level(2, 0));
}

static void test_run_stops(void)
{
    EXPECT(open_usual(1) == 0);
    /* nothing in work */
    EXPECT(run() == 0 && ran.steps == 0 && ran.reports == 0 && ran.bytes == 0);
    /* refusals */
    EXPECT(run_in(TABLE, 1023, 10) == 1);
    EXPECT(run_in(TABLE, 0, 0) == 1);
    EXPECT(run_in(TABLE - 1, 1023, 10) == 1);
    EXPECT(run_in(TABLE - 1, 1024, 10) == 2);
    EXPECT(run_in(0, 1024, 10) == 2);
    table[55] = 1;
    EXPECT(run_in(TABLE, 1024, 0) == 2);
    table[55] = 0;
    struct out a = fresh, b = fresh, c = fresh;
    EXPECT(kamurjesh_run(NULL, 0, NULL, 0, 1, &a.value, &b.value, &c.value) == 1);
    EXPECT(is_fine(&a) && is_fine(&b) && is_fine(&c) && a.value == 0 && b.value == 0 && c.value == 0);
    /* the budget */
    enter_book_r(2);
    EXPECT(submit(new_order("B-1", 1, 1200, "0.100", 10, '0')) == 0);
    EXPECT(run_in(TABLE, AREA, 0) == 0 && ran.steps == 0);
    EXPECT(depth_in(TABLE, 1, 0) == 3);
    EXPECT(run_in(TABLE, AREA, 2) == 0 && ran.steps == 2 && ran.reports == 4);
    EXPECT(run_in(TABLE, AREA, 2) == 0 && ran.steps == 2 && ran.reports == 3);
    EXPECT(depth_in(TABLE, 1, 0) == 3);
    EXPECT(run_in(TABLE, AREA, UINT64_MAX) == 0 && ran.steps == 1 && ran.reports == 0);
    EXPECT(level_is(1, 0, 100, 400, 1));
    /* room: one step fills the shortest area so far that there is none for the next */
    enter_book_r(2);
    EXPECT(submit(new_order("B-1", 1, 1200, "0.100", 10, '0')) == 0);
    for (unsigned i = 0; i < 4; i++)
        EXPECT(run_in(TABLE, 1024, 1000) == 0 && ran.steps == 1);
    EXPECT(run_in(TABLE, 1024, 1000) == 0 && ran.steps == 1 && ran.bytes == 0);
    EXPECT(run_in(TABLE, 1024, 1000) == 0 && ran.steps == 0);
    EXPECT(level_is(1, 0, 100, 400, 1));
}

/* ---- Depth */

static void test_depth(void)
{
    const uint64_t sides[] = {0, 3, 256 + 1, UINT64_MAX};
    enter_book_r(1);
    for (size_t i = 0; i < 4; i++)
        EXPECT(depth_in(TABLE, sides[i], 0) == 10);
    EXPECT(no_level(2, 2) && no_level(2, 255) && no_level(2, UINT64_MAX) && no_level(1, UINT64_MAX));
    EXPECT(depth_in(TABLE - 1, 2, 0) == 2);
    EXPECT(depth_in(0, 2, 0) == 2);
    EXPECT(depth_in(TABLE - 1, 9, 0) == 2); /* 2 before 10 */
    uint8_t was = table[127];
    table[127] = 1;
    EXPECT(depth_in(TABLE, 2, 0) == 2);
    table[127] = was;
    EXPECT(submit(new_order("B-1", 1, 1200, "0.102", 14, '0')) == 0);
    EXPECT(depth_in(TABLE, 2, 0) == 3);
    EXPECT(depth_in(TABLE, 9, 0) == 3); /* 3 before 10 */
    EXPECT(run() == 0);
    EXPECT(level_is(1, 0, 102, 1200, 1) && level_is(2, 0, 101, 100, 1));
    struct out found = fresh, total = fresh, orders = fresh;
    int64_t yield = INT64_MIN;
    EXPECT(kamurjesh_depth(NULL, 0, 1, 0, &found.value, &yield, &total.value, &orders.value) == 2);
    EXPECT(is_fine(&found) && is_fine(&total) && is_fine(&orders) && yield == 0);
}

/* ---- top of book */

static void test_top(void)
{
    const uint64_t sides[] = {0, 3, 256 + 1, UINT64_MAX};
    enter_book_r(1);
    for (size_t i = 0; i < 4; i++)
        EXPECT(top_in(TABLE, sides[i]) == 10);
    EXPECT(top_in(TABLE - 1, 2) == 2);
    EXPECT(top_in(128, 2) == 2);
    EXPECT(top_in(0, 2) == 2);
    EXPECT(top_in(TABLE - 1, 9) == 2); /* 2 before 10 */
    /* a requested cancel leaves the level behind it, and a refused one the same */
    EXPECT(submit(cancellation("C-1", "S-1", 2)) == 0 && level_is(2, 0, 100, 900, 3));
    EXPECT(submit(cancellation("C-2", "S-1", 2)) == 8 && level_is(2, 0, 100, 900, 3));
    /* in work, and with nothing in work again */
    EXPECT(submit(new_order("B-1", 1, 300, "0.100", 14, '0')) == 0);
    EXPECT(top_in(TABLE, 1) == 3 && top_in(TABLE, 2) == 3);
    EXPECT(top_in(TABLE, 9) == 3); /* 3 before 10 */
    EXPECT(run_in(TABLE, AREA, 1) == 0 && top_in(TABLE, 2) == 3);
    EXPECT(run() == 0 && level_is(2, 0, 100, 600, 2) && no_level(1, 0));
    struct out found = fresh, total = fresh, orders = fresh;
    int64_t yield = INT64_MIN;
    EXPECT(kamurjesh_top(NULL, 0, 1, &found.value, &yield, &total.value, &orders.value) == 2);
    EXPECT(is_fine(&found) && is_fine(&total) && is_fine(&orders) && yield == 0);
}

/* A total of more than 32 bits. */
static void test_top_total(void)
{
    const char *const ids[] = {"B-1", "B-2", "B-3", "B-4", "B-5"};
    EXPECT(open_usual(1) == 0);
    for (size_t i = 0; i < 5; i++)
        enter(new_order(ids[i], 1, 999999999, "-0.005", 10, '0'));
    EXPECT(level_is(1, 0, -5, 4999999995, 5) && no_level(2, 0));
}

/* Whether a table with another byte at a place is refused by top of book with this number; the byte is put back. */
static int top_with(size_t place, uint8_t byte, uint64_t number)
{
    uint8_t was = table[place];
    table[place] = byte;
    int so = top_in(TABLE, 2) == number;
    table[place] = was;
    return so;
}

/* It looks at the heading alone, and no other call takes a table whose heading says something else than the orders. Places:
 * docs/TABLE.md. */
static void test_top_forged(void)
{
    enter_book_r(1);
    /* a heading out of range */
    EXPECT(top_with(0, 0, 2) && top_with(28, 0, 2) && top_with(31, 255, 2) && top_with(55, 1, 2) && top_with(88, 4, 2));
    EXPECT(top_with(32, 1, 2)); /* 2 before 3: in work without a time */
    EXPECT(top_with(96, 1, 2) && top_with(99, 1, 2) && top_with(108, 1, 2) && top_with(111, 1, 2));
    EXPECT(top_with(98, 0, 2));                          /* a level without orders */
    EXPECT(top_with(98, 101, 2) && top_with(97, 1, 2)); /* more orders than the total; orders without a level */
    EXPECT(top_with(107, 255, 2));                       /* a level above 1,999,999,999 */
    EXPECT(top_with(120, 0, 2) && top_with(127, 1, 2));  /* a total of 0; one that so many orders cannot have */
    /* within its ranges it is believed here, and elsewhere found out */
    table[120] = 99;
    EXPECT(top_is(2, 101, 99, 1) && depth_in(TABLE, 2, 0) == 2 && run_in(TABLE, AREA, 1) == 2);
    table[120] = 100;
    EXPECT(level_is(2, 0, 101, 100, 1));
    /* the records are not looked at */
    memset(table + 128, 0xff, TABLE - 128);
    EXPECT(top_is(2, 101, 100, 1) && depth_in(TABLE, 2, 0) == 2);
}

/* ---- Read and fields */

static void test_read(void)
{
    enter_book_r(1);
    EXPECT(submit(new_order("B-1", 1, 50, "0.100", 14, '0')) == 0);
    EXPECT(run() == 0 && ran.reports == 2);
    struct message m = ran_report(1);
    EXPECT(kind_of(m.bytes, m.length) == KAMURJESH_IS_TRADE);
    EXPECT(kind_of(area, (size_t)ran.bytes) == 0); /* two reports are not one */
    EXPECT(kind_of(NULL, 0) == 0);
    for (size_t n = 0; n < m.length; n++)
        EXPECT(kind_of(m.bytes, n) == 0);
    for (size_t i = 0; i < m.length; i++) {
        m.bytes[i] ^= 1;
        EXPECT(kind_of(m.bytes, m.length) == 0); /* the CheckSum sees one changed byte, and is seen if it changes */
        m.bytes[i] ^= 1;
    }
    EXPECT(kind_of(m.bytes, m.length) == KAMURJESH_IS_TRADE);
    struct message order = new_order("B-2", 1, 50, "0.100", 14, '0');
    EXPECT(kind_of(order.bytes, order.length) == 0); /* a good message, but no report */

    EXPECT(field_is(m.bytes, m.length, 8, "FIX.4.2") && field_is(m.bytes, m.length, 11, "B-1"));
    EXPECT(field_is(m.bytes, m.length, 8060, "1") && field_is(m.bytes, m.length, 375, "11"));
    EXPECT(field_is(m.bytes, m.length, 1, NULL) && field_is(m.bytes, m.length, 41, NULL) && field_is(m.bytes, m.length, 806, NULL));
    EXPECT(field_is(m.bytes, m.length, 0, NULL) && field_is(m.bytes, m.length, UINT64_MAX, NULL));
    EXPECT(field_is(NULL, 0, 8, NULL) && field_is(m.bytes, 1, 8, NULL));
}

/* ---- feeds of drop copies */

/* An identifier, or some fields. */
struct text {
    uint8_t bytes[600];
    size_t length;
};

static struct text text(const char *words)
{
    struct text t = {{0}, strlen(words)};
    memcpy(t.bytes, words, t.length);
    return t;
}

/* So many different characters, from ! on. */
static struct text text_of(size_t length)
{
    struct text t = {{0}, length};
    for (size_t i = 0; i < length; i++)
        t.bytes[i] = (uint8_t)('!' + i);
    return t;
}

static void add_bytes(struct text *t, const void *bytes, size_t length)
{
    memcpy(t->bytes + t->length, bytes, length);
    t->length += length;
}

static void add_field(struct text *t, unsigned long tag, const void *value, size_t length)
{
    t->length += (size_t)snprintf((char *)t->bytes + t->length, 32, "%lu=", tag);
    add_bytes(t, value, length);
    t->bytes[t->length++] = SOH;
}

struct feed {
    uint64_t subscription, shows;
    struct text port, group;
    uint64_t next;
};

static struct feed feed_of(uint64_t subscription, uint64_t shows)
{
    struct feed f = {subscription, shows, text("P1"), text("G-7"), 1};
    return f;
}

/* The text of 109. */
static struct text client_of(const struct feed *f)
{
    struct text t = {{0}, 0};
    if (f->shows != KAMURJESH_SHOWS_GROUP)
        add_bytes(&t, f->port.bytes, f->port.length);
    if (f->shows == KAMURJESH_SHOWS_BOTH)
        add_bytes(&t, "-", 1);
    if (f->shows != KAMURJESH_SHOWS_PORT)
        add_bytes(&t, f->group.bytes, f->group.length);
    return t;
}

/* 8 and 9, the fields, and 10. */
static struct message enclosed(const struct text *fields)
{
    struct message m = {{0}, 0};
    unsigned sum = 0;
    m.length = (size_t)snprintf((char *)m.bytes, 32, "8=FIX.4.2%c9=%zu%c", SOH, fields->length, SOH);
    memcpy(m.bytes + m.length, fields->bytes, fields->length);
    m.length += fields->length;
    for (size_t i = 0; i < m.length; i++)
        sum += m.bytes[i];
    m.length += (size_t)snprintf((char *)m.bytes + m.length, 8, "10=%03u%c", sum % 256, SOH);
    return m;
}

/* What a copy of a report is: 34 and 17 are the feed's number, 109 and 797 stand in front of the first higher tag, and a 109 that was
 * there is gone; no tag of the header is that high. For 59=4 it has 59=3, and 38's value in 110, which is placed as 109 is. */
static struct message copy_of(const struct message *report, const struct feed *f)
{
    struct text fields = {{0}, 0}, number = {{0}, 0}, quantity = {{0}, 0}, client = client_of(f);
    unsigned long before = 0;
    int kills = 0;
    number.length = (size_t)snprintf((char *)number.bytes, sizeof number.bytes, "%" PRIu64, f->next);
    for (size_t at = 0; at < report->length - 7;) {
        unsigned long tag = strtoul((const char *)report->bytes + at, NULL, 10);
        const uint8_t *field = report->bytes + at, *value = (const uint8_t *)strchr((const char *)field, '=') + 1,
                      *end = (const uint8_t *)strchr((const char *)value, SOH);
        if (before < 109 && tag >= 109)
            add_field(&fields, 109, client.bytes, client.length);
        if (tag == 38)
            add_bytes(&quantity, value, (size_t)(end - value));
        if (tag == 59)
            kills = *value == '4';
        if (kills && before < 110 && tag >= 110)
            add_field(&fields, 110, quantity.bytes, quantity.length);
        if (before < 797 && tag > 797)
            add_field(&fields, 797, "Y", 1);
        if (tag == 34 || tag == 17)
            add_field(&fields, tag, number.bytes, number.length);
        else if (tag == 59 && kills)
            add_field(&fields, tag, "3", 1);
        else if (tag != 8 && tag != 9 && tag != 109 && !(tag == 110 && kills))
            add_field(&fields, tag, value, (size_t)(end - value));
        before = tag;
        at += (size_t)(end - field) + 1;
    }
    return enclosed(&fields);
}

/* Lent bytes that no call may change, between guard bytes. */
static struct lent lent_report, lent_port, lent_group;

static const uint8_t *lend(struct lent *l, const uint8_t *bytes, size_t length)
{
    guard(l, length);
    memcpy(l->all + GUARD, bytes, length);
    return l->all + GUARD;
}

static int is_as_lent(const struct lent *l, const uint8_t *bytes, size_t length)
{
    return is_guarded(l, length) && memcmp(l->all + GUARD, bytes, length) == 0;
}

/* The kind of a copy, 0 if it is refused. */
static uint64_t copy_kind_of(const uint8_t *copy, size_t length)
{
    struct out kind = fresh;
    uint64_t number = calls->copy_read(copy, length, &kind.value);
    EXPECT(is_fine(&kind));
    EXPECT((number == 11) == (kind.value == 0));
    EXPECT(number == 0 || number == 11);
    EXPECT(kind.value <= KAMURJESH_IS_TRADE);
    return kind.value;
}

static uint64_t copy_length;

static uint64_t copy_in(const struct feed *f, const struct message *report, size_t area_length)
{
    struct out length = fresh, next = fresh;
    const uint8_t *bytes = lend(&lent_report, report->bytes, report->length);
    const uint8_t *port = lend(&lent_port, f->port.bytes, f->port.length);
    const uint8_t *group = lend(&lent_group, f->group.bytes, f->group.length);
    lend_area(area_length);
    uint64_t number = calls->copy(bytes, report->length, f->subscription, f->shows, port, f->port.length, group, f->group.length,
                                  f->next, area, area_length, &length.value, &next.value);
    EXPECT(is_fine(&length) && is_fine(&next));
    EXPECT(is_as_lent(&lent_report, report->bytes, report->length));
    EXPECT(is_as_lent(&lent_port, f->port.bytes, f->port.length));
    EXPECT(is_as_lent(&lent_group, f->group.bytes, f->group.length));
    EXPECT(length.value <= KAMURJESH_LONGEST_REPORT);
    EXPECT(area_is_untouched_from((size_t)length.value, area_length));
    EXPECT(number == 0 || number == 1 || number == 11 || number == 17 || number == 4);
    if (number != 0)
        EXPECT(length.value == 0 && next.value == 0);
    else
        EXPECT(next.value == f->next + (length.value > 0));
    if (length.value > 0) {
        struct message copy = copy_of(report, f);
        EXPECT(length.value == copy.length && memcmp(area, copy.bytes, copy.length) == 0);
        EXPECT(copy_kind_of(area, copy.length) == kind_of(report->bytes, report->length));
        EXPECT(kind_of(area, copy.length) == 0); /* a copy is no report */
    }
    copy_length = length.value;
    return number;
}

static uint64_t copy(const struct feed *f, const struct message *report)
{
    return copy_in(f, report, 1024);
}

/* Reports of every kind: the first six by Submit, others by Run, and four of orders with a minimum. */
enum { SAMPLES = 19, SESSION_REJECT_SAMPLE = 5, TRADE_SAMPLE = 6, KILL_SAMPLE = 15 };
static struct message samples[SAMPLES];

static struct message submitted(struct message m)
{
    struct message report = {{0}, 0};
    submit(m);
    memcpy(report.bytes, area, (size_t)report_length);
    report.length = (size_t)report_length;
    EXPECT(run() == 0);
    return report;
}

static void take_samples(void)
{
    EXPECT(open_usual(1) == 0);
    samples[0] = submitted(new_order("A-1", 1, 500, "-0.005", 0, '0'));
    samples[1] = submitted(replacement("A-2", "A-1", 1, 700, "0.000"));
    samples[2] = submitted(cancellation("A-3", "A-2", 1));
    samples[3] = submitted(new_order("A-4", 1, 5, "0.100", 99, '0'));
    samples[4] = submitted(cancellation("A-5", "A-9", 1));
    samples[SESSION_REJECT_SAMPLE] = submitted(sent("A", "98=0|108=30|"));
    enter_book_r(3);
    EXPECT(submit(new_order("B-1", 1, 1200, "0.100", 10, '3')) == 0);
    EXPECT(run() == 0 && ran.reports == KILL_SAMPLE - TRADE_SAMPLE);
    for (unsigned i = TRADE_SAMPLE; i < KILL_SAMPLE; i++)
        samples[i] = ran_report(i - TRADE_SAMPLE);
    enter_book_r(3);
    samples[KILL_SAMPLE] = submitted(new_order("B-1", 1, 1200, "0.100", 14, '4'));
    samples[KILL_SAMPLE + 1] = ran_report(0);
    samples[KILL_SAMPLE + 2] = submitted(order_with("B-2", 1, 1200, "0.100", 0, '3', 1200));
    samples[KILL_SAMPLE + 3] = ran_report(0);
    uint64_t kinds = 0;
    for (unsigned i = 0; i < SAMPLES; i++)
        kinds |= UINT64_C(1) << kind_of(samples[i].bytes, samples[i].length);
    EXPECT(kinds == 0xfe); /* all of 1 to 7, and none refused */
}

static void test_copies(void)
{
    for (unsigned i = 0; i < SAMPLES; i++)
        for (uint64_t subscription = 1; subscription <= 2; subscription++)
            for (uint64_t shows = 1; shows <= 3; shows++) {
                struct feed f = feed_of(subscription, shows);
                uint64_t kind = kind_of(samples[i].bytes, samples[i].length);
                int is_copied = kind == KAMURJESH_IS_TRADE || (subscription == KAMURJESH_FULL && kind < KAMURJESH_IS_TRADE);
                EXPECT(copy(&f, &samples[i]) == 0 && (copy_length > 0) == is_copied);
                f.next = 999999999;
                EXPECT(copy_in(&f, &samples[i], AREA) == 0 && (copy_length > 0) == is_copied);
            }
    /* one of them as it stands */
    struct feed f = feed_of(KAMURJESH_RECONCILIATION, KAMURJESH_SHOWS_BOTH);
    f.next = 41;
    EXPECT(copy(&f, &samples[TRADE_SAMPLE]) == 0);
    EXPECT(field_is(area, copy_length, 34, "41") && field_is(area, copy_length, 17, "41") && field_is(area, copy_length, 880, "6"));
    EXPECT(field_is(area, copy_length, 109, "P1-G-7") && field_is(area, copy_length, 797, "Y"));
    f = feed_of(KAMURJESH_FULL, KAMURJESH_SHOWS_BOTH);
    EXPECT(copy(&f, &samples[KILL_SAMPLE]) == 0);
    EXPECT(field_is(area, copy_length, 59, "3") && field_is(area, copy_length, 110, "1200"));
    EXPECT(copy(&f, &samples[KILL_SAMPLE + 2]) == 0);
    EXPECT(field_is(area, copy_length, 59, "3") && field_is(area, copy_length, 110, "1200"));
}

static void test_copy_refused(void)
{
    struct feed good = feed_of(KAMURJESH_FULL, KAMURJESH_SHOWS_BOTH), bad = good, spent = good;
    struct message trade = samples[TRADE_SAMPLE], reject = samples[SESSION_REJECT_SAMPLE], none = {{0}, 0}, broken = trade;
    struct message order = new_order("A-1", 1, 500, "0.100", 10, '0');
    spent.next = bad.next = 0;
    bad.group.length = 0;
    broken.bytes[broken.length - 2] ^= 1; /* CheckSum */
    /* 1, 11, 17, 4 in this order, also for a report that is not copied */
    const struct message *const whole[] = {&trade, &reject}, *const parts[] = {&broken, &none, &order};
    for (size_t i = 0; i < 2; i++) {
        EXPECT(copy_in(&bad, whole[i], 1023) == 1 && copy_in(&good, whole[i], 1023) == 1 && copy_in(&good, whole[i], 0) == 1);
        EXPECT(copy(&bad, whole[i]) == 17);
        EXPECT(copy(&spent, whole[i]) == 4);
        EXPECT(copy(&good, whole[i]) == 0);
    }
    for (size_t i = 0; i < 3; i++) {
        EXPECT(copy_in(&bad, parts[i], 1023) == 1);
        EXPECT(copy(&bad, parts[i]) == 11 && copy(&spent, parts[i]) == 11 && copy(&good, parts[i]) == 11);
    }
    struct message copied = copy_of(&trade, &good);
    EXPECT(copy(&good, &copied) == 11); /* copies are not copied */
    /* lengths of 0 with no pointer */
    struct out length = fresh, next = fresh;
    EXPECT(kamurjesh_copy(NULL, 0, 2, 3, NULL, 0, NULL, 0, 1, NULL, 0, &length.value, &next.value) == 1);
    EXPECT(is_fine(&length) && is_fine(&next) && length.value == 0 && next.value == 0);
    lend_area(1024);
    EXPECT(kamurjesh_copy(NULL, 0, 2, 3, NULL, 0, NULL, 0, 1, area, 1024, &length.value, &next.value) == 11);
    EXPECT(kamurjesh_copy(trade.bytes, trade.length, 2, 3, NULL, 0, NULL, 0, 1, area, 1024, &length.value, &next.value) == 17);
    EXPECT(length.value == 0 && next.value == 0 && area_is_untouched_from(0, 1024));
}

static void test_feed_settings(void)
{
    const uint64_t numbers[] = {0, 1, 2, 3, 4, 256 + 1, 256 + 2, (UINT64_C(1) << 32) + 1, UINT64_MAX};
    for (size_t i = 0; i < sizeof numbers / sizeof *numbers; i++) {
        struct feed by_subscription = feed_of(numbers[i], 3), by_shows = feed_of(2, numbers[i]);
        EXPECT(copy(&by_subscription, &samples[TRADE_SAMPLE]) == (numbers[i] == 1 || numbers[i] == 2 ? 0 : 17));
        EXPECT(copy(&by_shows, &samples[TRADE_SAMPLE]) == (numbers[i] >= 1 && numbers[i] <= 3 ? 0 : 17));
    }
    const uint64_t nexts[] = {0, 1, 9, 10, 999999999, 1000000000, (UINT64_C(1) << 32) + 1, UINT64_MAX};
    for (size_t i = 0; i < sizeof nexts / sizeof *nexts; i++) {
        struct feed f = feed_of(KAMURJESH_RECONCILIATION, KAMURJESH_SHOWS_PORT);
        f.next = nexts[i];
        EXPECT(copy(&f, &samples[TRADE_SAMPLE]) == (nexts[i] >= 1 && nexts[i] <= 999999999 ? 0 : 4));
        EXPECT(copy(&f, &samples[0]) == (nexts[i] >= 1 && nexts[i] <= 999999999 ? 0 : 4)); /* though it is not copied */
    }
}

static void test_identifier_lengths(void)
{
    const size_t lengths[] = {0, 1, 14, 15, 29, 30, 31};
    for (size_t i = 0; i < 7; i++)
        for (size_t j = 0; j < 7; j++)
            for (uint64_t shows = 1; shows <= 3; shows++) {
                struct feed f = feed_of(KAMURJESH_FULL, shows);
                f.port = text_of(lengths[i]), f.group = text_of(lengths[j]);
                size_t p = lengths[i], g = lengths[j];
                int is_good = shows == KAMURJESH_SHOWS_PORT    ? p >= 1 && p <= 30
                              : shows == KAMURJESH_SHOWS_GROUP ? g >= 1 && g <= 30
                                                               : p >= 1 && g >= 1 && p + 1 + g <= 30;
                EXPECT(copy(&f, &samples[TRADE_SAMPLE]) == (is_good ? 0 : 17));
                EXPECT(copy(&f, &samples[SESSION_REJECT_SAMPLE]) == (is_good ? 0 : 17));
            }
}

static void test_identifier_bytes(void)
{
    const size_t places[] = {0, 5, 13};
    for (unsigned byte = 0; byte < 256; byte++)
        for (size_t i = 0; i < 3; i++)
            for (uint64_t shows = 1; shows <= 3; shows++) {
                uint64_t expected = byte >= 0x21 && byte <= 0x7e ? 0 : 17;
                struct feed f = feed_of(KAMURJESH_FULL, shows), g = f;
                f.port = g.port = f.group = g.group = text_of(14);
                f.port.bytes[places[i]] = g.group.bytes[places[i]] = (uint8_t)byte;
                EXPECT(copy(&f, &samples[TRADE_SAMPLE]) == (shows == KAMURJESH_SHOWS_GROUP ? 0 : expected));
                EXPECT(copy(&g, &samples[TRADE_SAMPLE]) == (shows == KAMURJESH_SHOWS_PORT ? 0 : expected));
            }
    /* one that is not shown is not looked at */
    struct text rubbish = {{0, SOH, 0xff, ' ', '=', 0x7f}, 600};
    struct feed by_port = feed_of(KAMURJESH_FULL, KAMURJESH_SHOWS_PORT), by_group = feed_of(KAMURJESH_FULL, KAMURJESH_SHOWS_GROUP);
    by_port.group = by_group.port = rubbish;
    EXPECT(copy(&by_port, &samples[TRADE_SAMPLE]) == 0 && field_is(area, copy_length, 109, "P1"));
    EXPECT(copy(&by_group, &samples[TRADE_SAMPLE]) == 0 && field_is(area, copy_length, 109, "G-7"));
}

static void test_copy_read(void)
{
    struct feed f = feed_of(KAMURJESH_FULL, KAMURJESH_SHOWS_BOTH);
    for (unsigned i = 0; i < SAMPLES; i++)
        EXPECT(copy_kind_of(samples[i].bytes, samples[i].length) == 0); /* a report is no copy */
    struct message m = copy_of(&samples[TRADE_SAMPLE], &f);
    EXPECT(copy_kind_of(m.bytes, m.length) == KAMURJESH_IS_TRADE);
    EXPECT(copy_kind_of(NULL, 0) == 0);
    for (size_t n = 0; n < m.length; n++)
        EXPECT(copy_kind_of(m.bytes, n) == 0);
    EXPECT(copy_kind_of(m.bytes, m.length + 1) == 0);
    for (size_t i = 0; i < m.length; i++) {
        m.bytes[i] ^= 1;
        EXPECT(copy_kind_of(m.bytes, m.length) == 0); /* the CheckSum sees one changed byte, and is seen if it changes */
        m.bytes[i] ^= 1;
    }
    for (size_t n = 1; n <= 31; n++) {
        f = feed_of(KAMURJESH_FULL, KAMURJESH_SHOWS_PORT);
        f.port = text_of(n);
        m = copy_of(&samples[0], &f);
        EXPECT(copy_kind_of(m.bytes, m.length) == (n <= 30 ? KAMURJESH_IS_ACCEPTED : 0));
    }
    /* copied as if they were, rejects are no copies */
    for (unsigned i = 3; i <= SESSION_REJECT_SAMPLE; i++) {
        m = copy_of(&samples[i], &f);
        EXPECT(copy_kind_of(m.bytes, m.length) == 0);
    }
}

/* ---- equities: the same calls by their other names, on a share */

static const struct settings usual_share = {"V", "P", "7203.T", 1, {10, 11, 12, 13, 14}, {1, 1, 1, 1, 1}, 5, 5};

static uint64_t open_share(void)
{
    return open_in(TABLE, &usual_share);
}

/* An order for the share by cash, Day. */
static struct message share(const char *id, int side, unsigned long quantity, const char *price, unsigned mpid)
{
    return share_order(id, side, quantity, price, mpid, '0', 1, 0);
}

static void test_share_open(void)
{
    const char *const good[] = {"8306", "A", "!~!~!~!~!", "7203.T", "350"}, *const bad[] = {"", "1234567890", "7203 T", "A\001", "\x7f", "\x80"};
    struct settings s = usual_share;
    for (size_t i = 0; i < sizeof good / sizeof *good; i++) {
        s.code = good[i];
        EXPECT(open_in(TABLE, &s) == 0 && table[55] == 1);
    }
    for (size_t i = 0; i < sizeof bad / sizeof *bad; i++) {
        s.code = bad[i];
        EXPECT(open_in(TABLE, &s) == 9);
    }
    s = usual_share;
    EXPECT(open_in(TABLE - 1, &s) == 9 && open_in(TABLE + 1, &s) == 9 && open_in(0, &s) == 9);
    s.first = 1000000000;
    EXPECT(open_in(TABLE, &s) == 9);
    s = usual_share, s.modes[4] = 4;
    EXPECT(open_in(TABLE, &s) == 9);
    s = usual_share, s.mpids[1] = 10;
    EXPECT(open_in(TABLE, &s) == 9);
    s = usual_share, s.venue = "V W";
    EXPECT(open_in(TABLE, &s) == 9);
    EXPECT(kamurjesh_equities_open(NULL, 0, NULL, 0, NULL, 0, NULL, 0, 1, NULL, 0, NULL, 0) == 9);
}

/* Prices, sides and marks as they are sent; a replacement and a cancel name the side exactly. */
static void test_share_taken(void)
{
    EXPECT(open_share() == 0);
    EXPECT(submit(share_order("A-1", 5, 500, "100", 10, '0', 3, 2)) == 0);
    EXPECT(kind_of(area, (size_t)report_length) == KAMURJESH_IS_ACCEPTED);
    EXPECT(says(50, "DAY") && says(44, "100.0") && says(6, "0.0000") && says(54, "5") && says(55, "7203.T") && says(544, "3") && says(8214, "2"));
    EXPECT(says(375, NULL) && says(382, NULL) && says(423, NULL) && says(109, "10"));
    EXPECT(run() == 0 && ran.steps == 1);
    EXPECT(level_is(2, 0, 1000, 500, 1) && no_level(1, 0));
    EXPECT(submit(replacement_of("7203.T", "A-2", "A-1", 2, 700, "99.9")) == 8 && says(102, "2"));
    EXPECT(submit(replacement_of("7203.T", "A-2", "A-1", 5, 700, "99.9")) == 0);
    EXPECT(kind_of(area, (size_t)report_length) == KAMURJESH_IS_REPLACED && says(44, "99.9") && says(544, "3") && says(8214, "2"));
    EXPECT(run() == 0 && level_is(2, 0, 999, 700, 1));
    EXPECT(submit(cancellation_of("7203.T", "A-3", "A-2", 6)) == 8 && says(102, "2"));
    EXPECT(submit(cancellation_of("7203.T", "A-3", "A-2", 5)) == 0);
    EXPECT(kind_of(area, (size_t)report_length) == KAMURJESH_IS_CANCELED && says(54, "5") && no_level(2, 0));
    enter(share("Z-1", 1, 1, "0", 10));
    EXPECT(level_is(1, 0, 0, 1, 1)); /* a price of zero */
    enter(share("Z-2", 6, 1, "99999999.9", 10));
    EXPECT(level_is(2, 0, 999999999, 1, 1));
}

static void test_share_refused(void)
{
    struct message good = share("A-1", 1, 500, "100.1", 10);
    struct settings s = usual_share;
    EXPECT(open_share() == 0);
    /* 1 before all others, 2, 5 */
    EXPECT(submit_in(TABLE, 1023, good.bytes, good.length) == 1 && submit_in(TABLE - 1, 1023, good.bytes, good.length) == 1);
    EXPECT(submit_in(TABLE - 1, 1024, good.bytes, good.length) == 2 && submit_in(0, 1024, good.bytes, good.length) == 2);
    EXPECT(submit_in(TABLE, AREA, NULL, 0) == 5 && submit_in(TABLE, AREA, good.bytes, good.length - 1) == 5);
    table[55] = 2; /* no such kind */
    EXPECT(submit(good) == 2 && run() == 2 && depth_in(TABLE, 1, 0) == 2 && top_in(TABLE, 1) == 2);
    table[55] = 1;
    /* 6 */
    const struct {
        struct message m;
        const char *tag, *reason;
    } bad[] = {
        {share("A-1", 1, 500, "-100.1", 10), "44", "6"},
        {share("A-1", 1, 500, "100.10", 10), "44", "6"},
        {share("A-1", 1, 500, "100.", 10), "44", "6"},
        {share("A-1", 1, 500, "123456789", 10), "44", "6"},
        {share("A-1", 3, 500, "100.1", 10), "54", "5"},
        {share_order("A-1", 1, 500, "100.1", 10, '0', 0, 0), "544", "1"},
        {share_order("A-1", 1, 500, "100.1", 10, '0', 4, 0), "544", "5"},
        {share_order("A-1", 1, 500, "100.1", 10, '0', 2, 3), "8214", "5"},
        {share_order("A-1", 1, 500, "100.1", 10, '0', 1, 1), "8214", "5"},
        {share_order("A-1", 1, 500, "100.1", 10, '0', 0, 1), "544", "1"},
        {sent("F", "11=B|41=A|54=1|55=7203.T|60=20260105-09:00:00|544=1|"), "544", "2"},
        {cancellation_of("7203.TOKYO", "B", "A", 1), "55", "6"},
    };
    for (size_t i = 0; i < sizeof bad / sizeof *bad; i++) {
        EXPECT(submit(bad[i].m) == 6 && says(371, bad[i].tag) && says(373, bad[i].reason) && says(50, "DAY"));
        EXPECT(kind_of(area, (size_t)report_length) == KAMURJESH_IS_SESSION_REJECT);
    }
    /* 7, 8 */
    EXPECT(submit(share("A-1", 1, 5, "100.1", 99)) == 7 && says(103, "99") && says(544, NULL) && says(50, "DAY"));
    EXPECT(kind_of(area, (size_t)report_length) == KAMURJESH_IS_REJECTED);
    EXPECT(submit(new_order("A-1", 1, 5, "100.1", 10, '0')) == 6 && says(371, "544")); /* a bond's order */
    EXPECT(submit(cancellation_of("7203.T", "A-2", "A-9", 1)) == 8 && says(102, "1"));
    EXPECT(kind_of(area, (size_t)report_length) == KAMURJESH_IS_CANCEL_REJECT);
    /* 3, 10 and 4 */
    EXPECT(submit(good) == 0);
    EXPECT(submit(good) == 3 && depth_in(TABLE, 1, 0) == 3 && top_in(TABLE, 1) == 3);
    EXPECT(run_in(TABLE, 1023, 1) == 1 && run_in(TABLE - 1, AREA, 1) == 2 && run() == 0);
    for (uint64_t side = 0; side <= 7; side++)
        EXPECT(depth_in(TABLE, side, 0) == (side == 1 || side == 2 ? 0 : 10) && top_in(TABLE, side) == (side == 1 || side == 2 ? 0 : 10));
    EXPECT(depth_in(TABLE - 1, 1, 0) == 2 && top_in(TABLE - 1, 1) == 2);
    s.first = 999998976;
    EXPECT(open_in(TABLE, &s) == 0);
    enter(good);
    EXPECT(submit(good) == 4);
}

/* Every sell trades with a buy, the lowest price first; AvgPx has four decimals, and a price is rounded as a price. */
static void test_share_trades(void)
{
    EXPECT(open_share() == 0);
    enter(share("S-1", 2, 1, "100.1", 11));
    enter(share("S-2", 5, 10, "100.0", 12));
    enter(share_order("S-3", 6, 5, "100.0", 13, '0', 2, 1));
    EXPECT(level_is(2, 0, 1000, 15, 2) && level_is(2, 1, 1001, 1, 1) && no_level(2, 2));
    EXPECT(submit(share("B-1", 1, 16, "100.1", 14)) == 0);
    EXPECT(run() == 0 && ran.steps == 4 && ran.reports == 6);
    const char *const sides[] = {"5", "1", "6", "1", "2", "1"}, *const prices[] = {"100.0", "100.0", "100.0", "100.0", "100.1", "100.1"},
                      *const averages[] = {"100.0000", "100.0000", "100.0000", "100.0000", "100.1000", "100.0063"};
    for (unsigned i = 0; i < 6; i++) {
        struct message m = ran_report(i);
        EXPECT(kind_of(m.bytes, m.length) == KAMURJESH_IS_TRADE);
        EXPECT(field_is(m.bytes, m.length, 54, sides[i]) && field_is(m.bytes, m.length, 31, prices[i]));
        EXPECT(field_is(m.bytes, m.length, 6, averages[i]) && field_is(m.bytes, m.length, 375, NULL));
        uint64_t kind = 0;
        EXPECT(kamurjesh_read(m.bytes, m.length, &kind) == 11 && kind == 0); /* no report of bonds */
    }
    EXPECT(no_level(1, 0) && no_level(2, 0));
}

/* A call of one market on a table of the other: 2, and 1 before it; nothing changes. */
static void test_other_market(void)
{
    struct message bond = new_order("A-1", 1, 5, "0.100", 10, '0'), for_share = share("A-1", 1, 5, "100.1", 10);
    for (int i = 0; i < 2; i++) {
        calls = i == 0 ? &bond_calls : &equities_calls;
        EXPECT(i == 0 ? open_usual(1) == 0 : open_share() == 0);
        enter(i == 0 ? bond : for_share);
        calls = i == 0 ? &equities_calls : &bond_calls;
        EXPECT(submit(bond) == 2 && submit(for_share) == 2 && submit_in(TABLE, 1023, bond.bytes, bond.length) == 1);
        EXPECT(run() == 2 && run_in(TABLE, 1023, 1) == 1);
        for (uint64_t side = 0; side <= 3; side++)
            EXPECT(depth_in(TABLE, side, 0) == 2 && top_in(TABLE, side) == 2);
    }
    calls = &equities_calls;
}

static void test_share_feed(void)
{
    struct message accepted, traded, copied, broken, bond = samples[TRADE_SAMPLE];
    EXPECT(open_share() == 0);
    accepted = submitted(share_order("S-1", 5, 300, "100.1", 11, '0', 2, 1));
    EXPECT(submit(share("B-1", 1, 100, "100.1", 14)) == 0 && run() == 0 && ran.reports == 2);
    traded = ran_report(0);
    broken = traded, broken.bytes[broken.length - 2] ^= 1; /* CheckSum */
    for (size_t n = 0; n <= 32; n++) {
        struct feed f = feed_of(KAMURJESH_FULL, KAMURJESH_SHOWS_PORT);
        f.port = text_of(n);
        EXPECT(copy(&f, &traded) == (n >= 1 && n <= 20 ? 0 : 17) && copy(&f, &accepted) == (n >= 1 && n <= 20 ? 0 : 17));
        copied = copy_of(&traded, &f);
        EXPECT(copy_kind_of(copied.bytes, copied.length) == (n >= 1 && n <= 20 ? KAMURJESH_IS_TRADE : 0));
    }
    struct feed f = feed_of(KAMURJESH_RECONCILIATION, KAMURJESH_SHOWS_BOTH), spent = f;
    EXPECT(copy(&f, &accepted) == 0 && copy_length == 0);
    EXPECT(copy(&f, &traded) == 0 && field_is(area, copy_length, 544, "2") && field_is(area, copy_length, 8214, "1"));
    EXPECT(field_is(area, copy_length, 109, "P1-G-7") && field_is(area, copy_length, 50, "DAY"));
    EXPECT(copy_in(&f, &traded, 1023) == 1 && copy(&f, &broken) == 11);
    EXPECT(copy(&f, &bond) == 11 && kind_of(bond.bytes, bond.length) == 0); /* of the other market */
    spent.next = 0;
    EXPECT(copy(&spent, &traded) == 4);
    copied = copy_of(&traded, &f);
    uint64_t kind = 1;
    EXPECT(kamurjesh_copy_read(copied.bytes, copied.length, &kind) == 11 && kind == 0);
    EXPECT(copy_kind_of(NULL, 0) == 0 && copy_kind_of(traded.bytes, traded.length) == 0);
}

/* ---- Load, of either market */

/* Messages that lie one behind another. */
struct batch {
    uint8_t bytes[8192];
    size_t length;
};

static struct batch batch_of(const struct message *messages, size_t count)
{
    struct batch b = {{0}, 0};
    for (size_t i = 0; i < count; i++) {
        memcpy(b.bytes + b.length, messages[i].bytes, messages[i].length);
        b.length += messages[i].length;
    }
    return b;
}

enum { LOAD_AREA = 32768 };
static struct lent lent_buffer;
static struct {
    uint64_t place, finished, bytes, reports;
} loaded;

static uint64_t load_in(size_t table_length, size_t area_length, const struct batch *b)
{
    struct out place = fresh, finished = fresh, bytes = fresh, reports = fresh;
    const uint8_t *buffer = lend(&lent_buffer, b->bytes, b->length);
    uint64_t first = next_number();
    lend_area(area_length);
    keep_table();
    uint64_t number = calls->load(table, table_length, buffer, b->length, area, area_length, &place.value, &finished.value,
                                  &bytes.value, &reports.value);
    EXPECT(is_fine(&place) && is_fine(&finished) && is_fine(&bytes) && is_fine(&reports));
    EXPECT(is_as_lent(&lent_buffer, b->bytes, b->length));
    EXPECT(area_is_untouched_from((size_t)bytes.value, area_length));
    EXPECT(is_guarded(&lent_table, TABLE));
    EXPECT(number <= 5 && place.value <= b->length);
    EXPECT(number != 0 || place.value == b->length);
    EXPECT(next_number() == first + reports.value);
    EXPECT(place.value > 0 || (finished.value == 0 && bytes.value == 0 && table_is_kept()));
    loaded.place = place.value;
    loaded.finished = finished.value;
    loaded.bytes = bytes.value;
    loaded.reports = reports.value;
    return number;
}

static int loaded_is(uint64_t place, uint64_t finished, uint64_t reports)
{
    return loaded.place == place && loaded.finished == finished && loaded.reports == reports;
}

/* The rest of a batch, from a place on. */
static struct batch rest_of(const struct batch *b, size_t place)
{
    struct batch rest = {{0}, b->length - place};
    memcpy(rest.bytes, b->bytes + place, rest.length);
    return rest;
}

/* Sells, a garbled message, one for another code, a buy that trades with two of the sells, and a cancel. */
enum { BATCH = 7 };

static void take_batch(struct message *messages)
{
    static const char *const ids[] = {"S-1", "S-2", "S-3"}, *const yields[] = {"0.101", "0.102", "0.100"};
    static const char *const prices[] = {"100.1", "100.0", "100.2"};
    int bonds = calls == &bond_calls;
    for (int i = 0; i < 3; i++)
        messages[i] = bonds ? new_order(ids[i], 2, 100, yields[i], 11, '0') : share(ids[i], 2, 100, prices[i], 11);
    messages[3] = messages[0];
    messages[3].bytes[messages[3].length - 2] ^= 1; /* CheckSum */
    messages[4] = cancellation_of("999", "X-1", "S-1", 2);
    messages[5] = bonds ? new_order("B-1", 1, 150, "0.101", 12, '0') : share("B-1", 1, 150, "100.1", 12);
    messages[6] = cancellation_of(bonds ? "350" : "7203.T", "C-1", "S-3", 2);
}

static void open_for_load(uint64_t first)
{
    struct settings s = calls == &bond_calls ? usual : usual_share;
    s.first = first;
    EXPECT(open_in(TABLE, &s) == 0);
}

/* The same table and the same bytes as by Submit and Run, message by message. */
static void test_load_as_singles(void)
{
    static uint8_t after[TABLE], written[LOAD_AREA];
    struct message messages[BATCH];
    size_t at = 0;
    take_batch(messages);
    struct batch b = batch_of(messages, BATCH);
    open_for_load(1);
    EXPECT(load_in(TABLE, LOAD_AREA, &b) == 0 && loaded_is(b.length, BATCH, 10));
    memcpy(after, table, TABLE);
    memcpy(written, area, (size_t)loaded.bytes);
    open_for_load(1);
    for (size_t i = 0; i < BATCH; i++) {
        submit(messages[i]);
        EXPECT(memcmp(written + at, area, (size_t)report_length) == 0);
        at += (size_t)report_length;
        EXPECT(run() == 0 && memcmp(written + at, area, (size_t)ran.bytes) == 0);
        at += (size_t)ran.bytes;
    }
    EXPECT(at == loaded.bytes && memcmp(table, after, TABLE) == 0);
    /* stopped for want of room wherever it may be, gone on with by Run and Load: the same end */
    for (size_t room = 1024; room <= 4096; room += 64) {
        struct batch rest = b;
        uint64_t number, finished = 0;
        open_for_load(1);
        while ((number = load_in(TABLE, room, &rest)) == 1) {
            rest = rest_of(&rest, (size_t)loaded.place);
            finished += loaded.finished;
            while (table[32] != 0) {
                EXPECT(run_in(TABLE, 1024, 1000) == 0);
                finished += table[32] == 0;
            }
        }
        EXPECT(number == 0 && finished + loaded.finished == BATCH && memcmp(table, after, TABLE) == 0);
    }
}

static void test_load_stops(void)
{
    struct message messages[BATCH], zeros;
    take_batch(messages);
    struct batch two = batch_of(messages, 2), none = {{0}, 0}, b;
    uint64_t first = messages[0].length;
    open_for_load(1);
    EXPECT(load_in(TABLE, 1024, &none) == 0 && loaded_is(0, 0, 0));
    /* inside the first message */
    EXPECT(load_in(TABLE, 1024, &two) == 1 && loaded_is(first, 0, 1) && table[32] != 0);
    EXPECT(load_in(TABLE, LOAD_AREA, &two) == 3 && loaded_is(0, 0, 0));
    /* a reject is finished, and there is no room for the next */
    open_for_load(1);
    struct message rejected[] = {messages[4], messages[0]};
    b = batch_of(rejected, 2);
    EXPECT(load_in(TABLE, 1024, &b) == 1 && loaded_is(rejected[0].length, 1, 1) && table[32] == 0);
    b = batch_of(rejected, 1);
    EXPECT(load_in(TABLE, 1024, &b) == 0 && loaded_is(b.length, 1, 1));
    b = two;
    /* a length that cannot be read: one byte too few, five digits, other bytes behind a message */
    open_for_load(1);
    b.length--;
    EXPECT(load_in(TABLE, LOAD_AREA, &b) == 5 && loaded_is(first, 1, 1));
    zeros = messages[1];
    memmove(zeros.bytes + 13, zeros.bytes + 12, zeros.length - 12);
    zeros.bytes[12] = '0', zeros.length++;
    b = batch_of(&zeros, 1);
    EXPECT(load_in(TABLE, LOAD_AREA, &b) == 0 && loaded_is(b.length, 1, 0)); /* garbled by its CheckSum */
    memmove(zeros.bytes + 13, zeros.bytes + 12, zeros.length - 12);
    zeros.length++;
    b = batch_of(&zeros, 1);
    EXPECT(load_in(TABLE, LOAD_AREA, &b) == 5 && loaded_is(0, 0, 0));
    b = batch_of(messages + 1, 2);
    b.bytes[messages[1].length] = '9';
    EXPECT(load_in(TABLE, LOAD_AREA, &b) == 5 && loaded_is(messages[1].length, 1, 1));
    /* the numbers are spent, before the first message and before the second */
    open_for_load(999998977);
    EXPECT(load_in(TABLE, LOAD_AREA, &two) == 4 && loaded_is(0, 0, 0));
    open_for_load(999998976);
    EXPECT(load_in(TABLE, LOAD_AREA, &two) == 4 && loaded_is(first, 1, 1));
}

static void test_load_refused(void)
{
    struct message messages[BATCH];
    struct out a = fresh, b = fresh, c = fresh, d = fresh;
    take_batch(messages);
    struct batch two = batch_of(messages, 2);
    open_for_load(1);
    EXPECT(load_in(TABLE, 1023, &two) == 1 && loaded_is(0, 0, 0));
    EXPECT(load_in(TABLE - 1, 1023, &two) == 1 && load_in(TABLE - 1, 1024, &two) == 2 && load_in(0, 1024, &two) == 2);
    const struct calls *own = calls;
    calls = own == &bond_calls ? &equities_calls : &bond_calls;
    EXPECT(load_in(TABLE, LOAD_AREA, &two) == 2 && loaded_is(0, 0, 0));
    calls = own;
    EXPECT(submit(messages[0]) == 0 && load_in(TABLE, LOAD_AREA, &two) == 3 && loaded_is(0, 0, 0));
    EXPECT(calls->load(NULL, 0, NULL, 0, NULL, 0, &a.value, &b.value, &c.value, &d.value) == 1);
    EXPECT(is_fine(&a) && is_fine(&b) && is_fine(&c) && is_fine(&d) && a.value + b.value + c.value + d.value == 0);
}

static void test_load(void)
{
    test_load_as_singles();
    test_load_stops();
    test_load_refused();
}

int main(void)
{
    test_open();
    test_open_refused();
    test_submit_taken();
    test_submit_unreported();
    test_submit_reported();
    test_full_table();
    test_run_modes();
    test_run_reports();
    test_minimums();
    test_run_stops();
    test_depth();
    test_top();
    test_top_total();
    test_top_forged();
    test_read();
    take_samples();
    test_copies();
    test_copy_refused();
    test_feed_settings();
    test_identifier_lengths();
    test_identifier_bytes();
    test_copy_read();
    test_load();
    calls = &equities_calls;
    test_share_open();
    test_share_taken();
    test_share_refused();
    test_share_trades();
    test_other_market();
    test_share_feed();
    test_load();
    printf("%u checks, %u failed\n", checks, failures);
    return failures > 0;
}
