/* Parts of a report or a message: the value of a tag, and reports one by one. Layer 1. */
#ifndef PARTS_H
#define PARTS_H

#include <stdbool.h>
#include <stddef.h>
#include <stdint.h>

/* Some bytes of a report or a message. */
struct part {
    const uint8_t *bytes;
    size_t length;
};

/* The value of a tag; empty where there is none. */
struct part value_of(struct part report, uint64_t tag);

bool part_is(struct part part, const char *text);
void print_part(struct part part);

/* The number that some digits say. */
uint64_t number_in(struct part digits);

/* Takes the first of the reports that stand one behind the other; false where there is none left. */
bool take_report(struct part *reports, struct part *report);

#endif
