/* The rehearsal market for C and C++: one bond or one share, one FIX port, up to 255 open orders. The calls for bonds come first, those
 * for equities, kamurjesh_equities_.., at the end.
 *
 *     scripts/library
 *     cc -Iinclude -o host examples/host.c target/staticlib/libkamurjesh.a        (on x86-64 Linux)
 *
 * or, with a release and without the kit,
 *
 *     cc -o host examples/host.c $(pkg-config --cflags --libs --static kamurjesh)
 *
 * The library allocates nothing, keeps nothing between calls and opens no file; of the C library it calls memcpy and memset, and
 * it uses less than 16 KB of stack, kamurjesh_restore less than 48 KB, since it reads a table into its stack before it touches yours.
 * Everything is in the buffers that you lend: a market is the KAMURJESH_TABLE_BYTES bytes of its table. Copy them, and you have a second
 * market; kamurjesh_save writes them with checks for a file. docs/TABLE.md says what each byte is.
 *
 * Any bytes may be given to any call: a table that is no market, a damaged message, a short area are refused by a number, and
 * nothing is ever read or written outside what is lent. You answer for what the library cannot see: every pointer is good for
 * as many elements as the length says, out pointers are good, and no two buffers of one call overlap, unless both are only
 * read (a const pointer). With length 0 a pointer is not used and may be NULL.
 *
 * One table is used by one thread at a time; threads that share a table take a lock of their own. Calls on different tables
 * don't disturb each other.
 *
 * A call returns 0, or the number of the first refusal that applies. Every out value is written at every call; those of
 * a refused call are 0, but for the length of the report that goes with refusals 6 to 8, the block that goes with 13, and what a load
 * says that has begun. */
#ifndef KAMURJESH_H
#define KAMURJESH_H

#include <stddef.h>
#include <stdint.h>

#ifdef __cplusplus
extern "C" {
#endif

enum {
    KAMURJESH_TABLE_BYTES = 32768, /* a table has exactly this length */
    KAMURJESH_IMAGE_BYTES = 33280, /* and an image, in which a table is kept, this one */
    KAMURJESH_LEAST_AREA = 1024,   /* the shortest area that Submit, Run, Load and a feed take */
    KAMURJESH_LONGEST_REPORT = 512 /* no report and no copy is longer */
};

/* Refusals. After 1 to 5, 9 to 13 and 17 every lent byte is what it was, but for what Load did before it stopped with 1, 4 or 5. */
enum kamurjesh_refusal {
    KAMURJESH_TAKEN = 0,          /* not refused */
    KAMURJESH_NO_ROOM = 1,        /* Submit, Run, Load, a feed: the area is shorter than KAMURJESH_LEAST_AREA; Load: or fewer bytes are left */
    KAMURJESH_NO_MARKET = 2,      /* Submit, Run, Load, Depth, Save: the table is no market of this kind; Restore: that in the image is none;
                                     top of book: its length or its heading is none's */
    KAMURJESH_IN_WORK = 3,        /* Submit, Load, Depth, top of book: an order is in work; Run first */
    KAMURJESH_NUMBERS_SPENT = 4,  /* Submit, Load: the next report number is above 999,998,976; a feed: its next number is 0 or above 999,999,999 */
    KAMURJESH_GARBLED = 5,        /* Submit: the message is garbled; Load: the length of a message cannot be read */
    KAMURJESH_SESSION_REJECT = 6, /* Submit: a Session Reject is written, the next number goes up by 1 */
    KAMURJESH_ORDER_REJECT = 7,   /* Submit: a Rejected is written, the next number goes up by 1 */
    KAMURJESH_CHANGE_REJECT = 8,  /* Submit: a Cancel reject is written, the next number goes up by 1 */
    KAMURJESH_BAD_SETTING = 9,    /* Open: the table's length or a setting is wrong */
    KAMURJESH_BAD_SIDE = 10,      /* Depth, top of book: the side is neither 1 nor 2 */
    KAMURJESH_NO_REPORT = 11,     /* Read, a feed: the bytes are no report; reading a copy: they are no copy */
    KAMURJESH_BAD_LENGTH = 12,    /* Save, Restore: the image's length or the table's is wrong */
    KAMURJESH_BAD_BLOCK = 13,     /* Restore: a block of the image has a wrong check, or its filling is not zero */
    KAMURJESH_BAD_FEED = 17       /* a feed: an identifier that it shows, or a number that sets it up, is wrong */
};

/* What happens when orders with the same MPID meet. */
enum kamurjesh_mode {
    KAMURJESH_CANCEL_NEWEST = 1, /* the order in work is canceled */
    KAMURJESH_CANCEL_OLDEST = 2, /* the resting order is canceled */
    KAMURJESH_DECREMENT = 3      /* the smaller is canceled and the larger loses as much; both are canceled if equal */
};

enum kamurjesh_side { KAMURJESH_BUY = 1, KAMURJESH_SELL = 2 };

/* Kinds of reports. */
enum kamurjesh_kind {
    KAMURJESH_IS_ACCEPTED = 1,
    KAMURJESH_IS_REPLACED = 2,
    KAMURJESH_IS_CANCELED = 3,
    KAMURJESH_IS_TRADE = 4,
    KAMURJESH_IS_REJECTED = 5,
    KAMURJESH_IS_CANCEL_REJECT = 6,
    KAMURJESH_IS_SESSION_REJECT = 7
};

/* Opens a market without orders: writes the whole table, whatever was in it.
 * venue, port: 1 to 8 characters, 21 to 7E hex. code: 1 to 9 digits. first: the number of the first report, 1 to 999,999,999.
 * mpids, modes: two lists of the same length, 1 to 8; MPIDs 1 to 999,999, all different; modes as in kamurjesh_mode.
 * Refusals: 9. */
uint64_t kamurjesh_open(uint8_t *table, size_t table_length,
                        const uint8_t *venue, size_t venue_length,
                        const uint8_t *port, size_t port_length,
                        const uint8_t *code, size_t code_length,
                        uint64_t first,
                        const uint64_t *mpids, size_t mpids_count,
                        const uint64_t *modes, size_t modes_count);

/* Takes one FIX message and writes its first report at the start of the area. A new order or a replacement that is taken is
 * then in work: call kamurjesh_run until it is done. A cancel is done at once. A replacement with the same yield and a 38 not
 * above the one in force keeps its place among the orders of that yield; any other goes behind them. A new order finds no room
 * (103=0) only while 255 orders are open: if no record is free it takes that of an order with nothing open, which is gone then.
 * 37 of all reports of an order is the number of its Accepted report.
 * length: of the report; the area's bytes behind it stay as they were.
 * Refusals: 1 to 8. */
uint64_t kamurjesh_submit(uint8_t *table, size_t table_length,
                          const uint8_t *message, size_t message_length,
                          uint8_t *area, size_t area_length,
                          uint64_t *length);

/* Matches the order in work, at most budget steps, and writes the reports one behind the other from the start of the area. It
 * stops when nothing is in work, the budget is spent, or fewer than KAMURJESH_LEAST_AREA bytes of the area are free; a
 * later call goes on from there. With nothing in work it does nothing and returns 0 with 0 steps. An order with 59=4 that would
 * not trade its whole quantity, and one that would not trade its 110, is canceled whole in its first step (378=99), and no other
 * order is touched.
 * bytes, reports, steps: written and taken by this call; the area's bytes behind the written ones stay as they were.
 * Refusals: 1, 2. */
uint64_t kamurjesh_run(uint8_t *table, size_t table_length,
                       uint8_t *area, size_t area_length,
                       uint64_t budget,
                       uint64_t *bytes, uint64_t *reports, uint64_t *steps);

/* Takes the messages of a buffer, which lie one behind another: each is what kamurjesh_submit and then kamurjesh_run to the end make of it,
 * and all reports lie one behind the other from the start of the area. A message begins with 8=FIX.4.2 and a field 9 of 1 to 4 digits;
 * behind them are as many bytes as 9 says and the seven of field 10. One that is garbled otherwise is passed over, as kamurjesh_submit does.
 * The call ends at the end of the buffer (0), or stops: with 1 in front of a message when fewer than KAMURJESH_LEAST_AREA bytes of
 * the area are free, and inside one when its Run stops for want of room; with 5 at bytes whose length cannot be read; with 4 in front of a
 * message when the numbers are spent. What went before stands. After 1, call kamurjesh_run until nothing is in work, and load the rest of
 * the buffer, from place on.
 * place: of the first message not submitted, in bytes from 0; the length of the buffer if there is none. finished: how many messages were
 * submitted and have nothing in work, whatever their answer. bytes, reports: written by this call.
 * Refusals of the whole call, with all four 0: 1, 2, 3. */
uint64_t kamurjesh_load(uint8_t *table, size_t table_length,
                        const uint8_t *buffer, size_t buffer_length,
                        uint8_t *area, size_t area_length,
                        uint64_t *place, uint64_t *finished, uint64_t *bytes, uint64_t *reports);

/* The k-th level of a side from the best, k from 0. Nothing is changed.
 * found: 1 if there is such a level, 0 if there is none (then the others are 0). yield_thousandths: 100 is a yield of 0.100.
 * total: what is open there. orders: how many orders that is.
 * Refusals: 2, 3, 10. */
uint64_t kamurjesh_depth(const uint8_t *table, size_t table_length,
                         uint64_t side, uint64_t k,
                         uint64_t *found, int64_t *yield_thousandths, uint64_t *total, uint64_t *orders);

/* The best level of a side, as the heading of the table keeps it: on every market what kamurjesh_depth gives for k = 0, and it takes
 * the same time whatever is open. It looks at the table's length and its first 128 bytes alone: where those of a market stand in front
 * of other bytes, it gives what they say. Nothing is changed. The out values are those of kamurjesh_depth.
 * Refusals: 2, 3, 10. */
uint64_t kamurjesh_top(const uint8_t *table, size_t table_length,
                       uint64_t side,
                       uint64_t *found, int64_t *yield_thousandths, uint64_t *total, uint64_t *orders);

/* Whether the bytes are one report, whole and nothing behind it, written as this market writes; its kind as in kamurjesh_kind,
 * 0 if refused. Nothing is changed.
 * Refusals: 11. */
uint64_t kamurjesh_read(const uint8_t *report, size_t report_length, uint64_t *kind);

/* Where the value of a tag stands in a report: returns 1, and its first byte and its length in bytes; or 0 if no field of the
 * report has the tag. Works on any bytes, in which it finds the first such field; kamurjesh_read says if they are a report. */
uint64_t kamurjesh_field(const uint8_t *report, size_t report_length, uint64_t tag, uint64_t *start, uint64_t *length);

/* What a feed of drop copies is handed, and which identifiers 109 of its copies shows. */
enum kamurjesh_subscription {
    KAMURJESH_RECONCILIATION = 1, /* Trade alone */
    KAMURJESH_FULL = 2            /* Accepted, Replaced, Canceled and Trade */
};

enum kamurjesh_shows {
    KAMURJESH_SHOWS_PORT = 1,  /* the order entry port's */
    KAMURJESH_SHOWS_GROUP = 2, /* the trade group's */
    KAMURJESH_SHOWS_BOTH = 3   /* both, with a hyphen between */
};

/* Hands a feed one report. If its subscription has reports of that kind, the copy is written at the start of the area: the report
 * with the feed's number in 34 and 17, the identifiers in 109, and 797=Y; a Fill or Kill (59=4) has 59=3 there and 38's value in 110.
 * The area's bytes behind it stay as they were. The feed keeps nothing: its next number, 1 at first, goes in with each report and
 * comes out in next_after.
 * port, group: those that are shown have 1 or more characters, 21 to 7E hex, and 109 at most 30; one not shown is not looked at.
 * next: 1 to 999,999,999. length: of the copy. A report that is not copied gives 0 with length 0 and next_after = next.
 * Refusals, in this order: 1, 11, 17, 4. */
uint64_t kamurjesh_copy(const uint8_t *report, size_t report_length,
                        uint64_t subscription, uint64_t shows,
                        const uint8_t *port, size_t port_length,
                        const uint8_t *group, size_t group_length,
                        uint64_t next,
                        uint8_t *area, size_t area_length,
                        uint64_t *length, uint64_t *next_after);

/* Whether the bytes are one copy, whole and nothing behind it, written as a feed writes; its kind as in kamurjesh_kind, 1 to 4,
 * and 0 if refused. kamurjesh_field says where its values stand. Nothing is changed.
 * Refusals: 11. */
uint64_t kamurjesh_copy_read(const uint8_t *copy, size_t copy_length, uint64_t *kind);

/* Writes the market into the image, to be kept: 65 blocks of 512 bytes, each of 508 bytes of the table and a check of 4 that tells any
 * changed byte and any two blocks that changed places. The table is not changed; an order may be in work.
 * Refusals, in this order: 12, 2. */
uint64_t kamurjesh_save(const uint8_t *table, size_t table_length, uint8_t *image, size_t image_length);

/* Reads the market in the image back into the table, whatever was in it. It goes on as the one that was written would have.
 * block: of refusal 13 the first bad block, from 0; else 0.
 * Refusals, in this order: 12, 13, 2. */
uint64_t kamurjesh_restore(uint8_t *table, size_t table_length, const uint8_t *image, size_t image_length, uint64_t *block);

/* ---- Equities. Each call does what the bond call of its name does, on a table that kamurjesh_equities_open opened; a bond call on such a
 * table, and one of these on a bond table, is refused with 2. What differs:
 * - 44 and 31 are prices: 1 to 8 whole digits and at most one decimal, never below zero; AvgPx has four decimals. For a buy the higher price
 *   is better.
 * - sides are 1, 2, 5 (sell short) and 6 (sell short exempt); 5 and 6 sell. A cancel or a replacement names the side as it was sent.
 *   Depth and top of book are asked for 1 or 2 alone, and 2 takes in every sell.
 * - 55 is a symbol of up to 9 characters. A new order has 544 (1, 2 or 3) and may have 8214 (1 or 2, not with 544=1).
 * - reports have 50=DAY, no 375, 382 or 423, and 544 and 8214 as sent. 109 of a copy has at most 20 characters. */

/* symbol: 1 to 9 characters, 21 to 7E hex. All else as in kamurjesh_open.
 * Refusals: 9. */
uint64_t kamurjesh_equities_open(uint8_t *table, size_t table_length,
                                 const uint8_t *venue, size_t venue_length,
                                 const uint8_t *port, size_t port_length,
                                 const uint8_t *symbol, size_t symbol_length,
                                 uint64_t first,
                                 const uint64_t *mpids, size_t mpids_count,
                                 const uint64_t *modes, size_t modes_count);

/* Refusals: 1 to 8. */
uint64_t kamurjesh_equities_submit(uint8_t *table, size_t table_length,
                                   const uint8_t *message, size_t message_length,
                                   uint8_t *area, size_t area_length,
                                   uint64_t *length);

/* Refusals: 1, 2. */
uint64_t kamurjesh_equities_run(uint8_t *table, size_t table_length,
                                uint8_t *area, size_t area_length,
                                uint64_t budget,
                                uint64_t *bytes, uint64_t *reports, uint64_t *steps);

/* Refusals of the whole call: 1, 2, 3; it stops with 1, 5 or 4. */
uint64_t kamurjesh_equities_load(uint8_t *table, size_t table_length,
                                 const uint8_t *buffer, size_t buffer_length,
                                 uint8_t *area, size_t area_length,
                                 uint64_t *place, uint64_t *finished, uint64_t *bytes, uint64_t *reports);

/* price_tenths: 1001 is a price of 100.1.
 * Refusals: 2, 3, 10. */
uint64_t kamurjesh_equities_depth(const uint8_t *table, size_t table_length,
                                  uint64_t side, uint64_t k,
                                  uint64_t *found, int64_t *price_tenths, uint64_t *total, uint64_t *orders);

/* Refusals: 2, 3, 10. */
uint64_t kamurjesh_equities_top(const uint8_t *table, size_t table_length,
                                uint64_t side,
                                uint64_t *found, int64_t *price_tenths, uint64_t *total, uint64_t *orders);

/* kamurjesh_field says where the values of a report or a copy of either market stand.
 * Refusals: 11. */
uint64_t kamurjesh_equities_read(const uint8_t *report, size_t report_length, uint64_t *kind);

/* Refusals, in this order: 1, 11, 17, 4. */
uint64_t kamurjesh_equities_copy(const uint8_t *report, size_t report_length,
                                 uint64_t subscription, uint64_t shows,
                                 const uint8_t *port, size_t port_length,
                                 const uint8_t *group, size_t group_length,
                                 uint64_t next,
                                 uint8_t *area, size_t area_length,
                                 uint64_t *length, uint64_t *next_after);

/* Refusals: 11. */
uint64_t kamurjesh_equities_copy_read(const uint8_t *copy, size_t copy_length, uint64_t *kind);

/* Refusals, in this order: 12, 2. */
uint64_t kamurjesh_equities_save(const uint8_t *table, size_t table_length, uint8_t *image, size_t image_length);

/* Refusals, in this order: 12, 13, 2; the image of a bond market is refused with 2. */
uint64_t kamurjesh_equities_restore(uint8_t *table, size_t table_length, const uint8_t *image, size_t image_length, uint64_t *block);

#ifdef __cplusplus
}
#endif

#endif
