/* The market of a rehearsal. Layer 4. */
#ifndef MARKET_H
#define MARKET_H

#include "lines.h"
#include "opening.h"
#include "parts.h"

/* Opens a market of the kind that is rehearsed. */
void open_market(const struct opening *opening);

/* Whether the market has the settings of an opening, of the same kind; its next number aside, which has moved on. */
bool has_settings(const struct opening *opening);

/* An image of the table, and two of the refusals that reading one back may get: its length, and a block of it. */
enum { IMAGE_BYTES = 33280, BAD_LENGTH = 12, BAD_BLOCK = 13 };

/* Writes the table out into an image. */
void save_table(uint8_t *image);

/* Reads the table back from an image; gives 0 or the refusal, and with 13 the first block that was changed. */
uint64_t restore_table(const uint8_t *image, size_t length, uint64_t *block);

/* Matches what is in work to its end and prints the reports; gives how many steps that took. */
uint64_t run_to_the_end(void);

/* Takes a message to its end and prints the answer in words behind what stands in the line already, then the reports. */
void take_message(const struct message *message);

/* Takes the messages of a buffer, as many as one area has room for the reports of, prints the reports, and brings the last message to its
 * end. Adds to the place how far it came and to `finished` how many messages are; gives 0 where all are, 1 where more may be taken from
 * the place on, or the refusal. */
uint64_t load_some(struct part buffer, uint64_t *place, uint64_t *finished);

/* A level of the book; its quote in the library's steps. */
struct level {
    int64_t quote;
    uint64_t total, orders;
};

enum { MOST_LEVELS = 255 };

/* The levels of a side, best first, into room for MOST_LEVELS; gives how many they are. */
size_t take_levels(uint64_t side, struct level *levels);

/* Prints a quote with its decimals. */
void print_quote(FILE *out, int64_t quote);

/* Prints the depth, that of bonds as ./book prints it. */
void print_depth(void);

#endif
