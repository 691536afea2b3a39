/* Which market is rehearsed, the bond market or the equities market: its calls, as kamurjesh.h declares them, and its words.
 * Layer 0. */
#ifndef KIND_H
#define KIND_H

#include <stdbool.h>
#include <stddef.h>
#include <stdint.h>

struct kind {
    const char *code_name;    /* what the code that it trades is called */
    const char *quote_name;   /* what its orders are quoted by */
    int decimals;             /* of such a quote */
    int64_t unit;             /* how many of the library's steps a quote of 1 has */
    size_t longest_109;       /* of a copy */
    bool tells_sides;         /* whether the words of a report tell the order's side and quote */
    uint64_t (*open)(uint8_t *table, size_t table_length, const uint8_t *venue, size_t venue_length, const uint8_t *port,
                     size_t port_length, const uint8_t *code, size_t code_length, uint64_t first, const uint64_t *mpids,
                     size_t mpids_count, const uint64_t *modes, size_t modes_count);
    uint64_t (*submit)(uint8_t *table, size_t table_length, const uint8_t *message, size_t message_length, uint8_t *area,
                       size_t area_length, uint64_t *length);
    uint64_t (*run)(uint8_t *table, size_t table_length, uint8_t *area, size_t area_length, uint64_t budget, uint64_t *bytes,
                    uint64_t *reports, uint64_t *steps);
    uint64_t (*depth)(const uint8_t *table, size_t table_length, uint64_t side, uint64_t k, uint64_t *found, int64_t *quote,
                      uint64_t *total, uint64_t *orders);
    uint64_t (*copy)(const uint8_t *report, size_t report_length, uint64_t subscription, uint64_t shows, const uint8_t *port,
                     size_t port_length, const uint8_t *group, size_t group_length, uint64_t next, uint8_t *area,
                     size_t area_length, uint64_t *length, uint64_t *next_after);
    uint64_t (*load)(uint8_t *table, size_t table_length, const uint8_t *buffer, size_t buffer_length, uint8_t *area,
                     size_t area_length, uint64_t *place, uint64_t *finished, uint64_t *bytes, uint64_t *reports);
    uint64_t (*save)(const uint8_t *table, size_t table_length, uint8_t *image, size_t image_length);
    uint64_t (*restore)(uint8_t *table, size_t table_length, const uint8_t *image, size_t image_length, uint64_t *block);
};

extern const struct kind bonds, equities;

/* The one that is rehearsed: bonds, unless the command line asks for equities. */
extern const struct kind *kind;

#endif
