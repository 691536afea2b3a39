/* native ROUNDS: how long calls take on this machine. A line for each: its name, a tab, and the nanoseconds of the best of its rounds. The
 * work, the messages and the names are those of the bench of the plain Rust market beside which bench/native prints them: messages are made
 * before, and where a call changes the table, it is put back before each round; neither is timed. The clock's own time is taken off. */
#define _POSIX_C_SOURCE 200809L
#include <stdio.h>
#include <stdlib.h>
#include <string.h>
#include <time.h>

#include "kamurjesh.h"
#include "messages.h"

static uint8_t table[KAMURJESH_TABLE_BYTES], kept[KAMURJESH_TABLE_BYTES];
static uint8_t area[1 << 19];
static uint64_t length, bytes, reports, steps;
static struct message incoming;
enum { NO_SIDE = 3 };

static void must(int holds)
{
    if (!holds)
        exit(1);
}

/* ---- the market and its orders */

static void open_market(void)
{
    static const uint64_t mpids[] = {10, 11, 12, 13, 14}, modes[] = {1, 1, 1, 1, 1};
    must(kamurjesh_open(table, sizeof table, (const uint8_t *)"VENUE", 5, (const uint8_t *)"PORT01", 6, (const uint8_t *)"350", 3, 1,
                        mpids, 5, modes, 5) == 0);
}

/* Order n, with a ClOrdID of 21 characters and an account of 8; a yield in thousandths. */
static struct message order(unsigned n, int side, unsigned quantity, unsigned yield, unsigned mpid)
{
    char fields[600], time[32];
    snprintf(time, sizeof time, "20261116-09:%02u:%02u", n / 60 % 60, n % 60);
    snprintf(fields, sizeof fields,
             "35=D|34=%u|49=PORT01|52=%s|56=VENUE|1=DESK%04u|11=ORD-20261116-%08u|21=1|38=%u|40=2|44=%u.%03u|47=P|54=%d|55=350|59=0|60=%s|"
             "109=%u|8060=1|",
             n, time, n % 10000, n, quantity, yield / 1000, yield % 1000, side, time, mpid);
    return framed(fields);
}

static void submit(void)
{
    must(kamurjesh_submit(table, sizeof table, incoming.bytes, incoming.length, area, sizeof area, &length) == 0);
}

static void run(uint64_t from, uint64_t budget)
{
    must(kamurjesh_run(table, sizeof table, area + from, sizeof area - from, budget, &bytes, &reports, &steps) == 0);
}

static void submit_and_run(void)
{
    submit();
    run(length, UINT32_MAX);
}

static void enter(struct message m)
{
    incoming = m;
    submit_and_run();
}

/* ---- what is timed */

static void submit_and_step(void)
{
    submit();
    uint64_t at = length;
    for (int i = 0; i < 251; i++) {
        run(at, 1);
        must(steps == 1);
        at += bytes;
    }
}

/* Depth of a level, or of a side that there is not: then the table is checked and no more. */
static uint64_t side, level;

static void depth(void)
{
    uint64_t found = 0, total, orders, answer = side == NO_SIDE ? 10 : 0;
    int64_t yield;
    must(kamurjesh_depth(table, sizeof table, side, level, &found, &yield, &total, &orders) == answer && found == (answer == 0));
}

/* ---- timing */

static uint64_t moment(void)
{
    struct timespec t;
    clock_gettime(CLOCK_MONOTONIC, &t);
    return (uint64_t)t.tv_sec * 1000000000 + (uint64_t)t.tv_nsec;
}

/* The least of so many rounds. Where the work changes the table, each begins with the table as it was. */
static uint64_t least_of(unsigned rounds, int changes, void (*work)(void))
{
    uint64_t least = UINT64_MAX;
    memcpy(kept, table, sizeof table);
    for (unsigned i = 0; i < rounds; i++) {
        if (changes)
            memcpy(table, kept, sizeof table);
        uint64_t start = moment();
        work();
        uint64_t took = moment() - start;
        least = took < least ? took : least;
    }
    memcpy(table, kept, sizeof table);
    return least;
}

static void nothing(void)
{
}

static void time_of(const char *name, unsigned rounds, int changes, void (*work)(void))
{
    uint64_t clock = least_of(1000, 0, nothing), least = least_of(rounds, changes, work);
    printf("%s\t%llu\n", name, (unsigned long long)(least > clock ? least - clock : 0));
}

static void time_of_depth(const char *name, unsigned rounds, uint64_t of, uint64_t k)
{
    side = of;
    level = k;
    time_of(name, rounds, 0, depth);
}

int main(int count, char **words)
{
    unsigned rounds = count > 1 ? (unsigned)strtoul(words[1], NULL, 10) : 400;
    struct message last = order(900, KAMURJESH_BUY, 500, 2000, 10);
    open_market();
    time_of_depth("is it a market, 0 orders", rounds, NO_SIDE, 0);
    incoming = last;
    time_of("Submit+Run, rests in an empty book", rounds, 1, submit_and_run);
    for (unsigned i = 0; i < 254; i++)
        enter(order(i + 1, KAMURJESH_SELL, 100 + i, 900 - i, 10 + i % 5));
    time_of_depth("is it a market, 254 orders", rounds, NO_SIDE, 0);

    open_market();
    for (unsigned i = 0; i < 254; i++)
        enter(i % 2 == 0 ? order(i + 1, KAMURJESH_BUY, 100 + i, 1000 + i, 10 + i % 5)
                         : order(i + 1, KAMURJESH_SELL, 100 + i, 900 - i, 10 + i % 5));
    incoming = last;
    time_of("Submit+Run, rests, 254 open, all levels apart", rounds, 1, submit_and_run);
    enter(last);
    time_of_depth("Depth k=0, 255 open", rounds, KAMURJESH_BUY, 0);
    time_of_depth("Depth last level (k=126), 255 open", rounds, KAMURJESH_SELL, 126);

    open_market();
    for (unsigned i = 0; i < 250; i++)
        enter(order(i + 1, KAMURJESH_SELL, 100, 900 - i * 37 % 250, 11 + i % 4));
    incoming = order(900, KAMURJESH_BUY, 25000, 100, 10);
    time_of("Submit+Run, sweeps 250 resting (500 reports)", rounds / 20, 1, submit_and_run);
    must(steps == 251 && reports == 500);
    time_of("the same, one step per Run (251 Runs)", rounds / 80, 1, submit_and_step);
    return 0;
}
