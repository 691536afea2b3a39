/* The feed of drop copies of a rehearsal. Layer 2. */
#ifndef FEED_H
#define FEED_H

#include "parts.h"

/* How a feed is set up. */
struct feed {
    uint64_t subscription;    /* as in kamurjesh_subscription; 0 where there is no feed */
    const char *port, *group; /* the identifiers that 109 shows; NULL for one that it does not show */
};

/* Takes a setup, for reports from here on, with the next number 1. */
void open_feed(struct feed feed);

/* Hands the feed a report, and prints a line with the copy, or why it was refused; nothing where the report is not copied or there is
 * no feed. */
void print_copy(struct part report);

#endif
