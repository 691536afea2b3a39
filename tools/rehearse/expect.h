/* Calls of the market that this program makes so that none is refused. Layer 0. */
#ifndef EXPECT_H
#define EXPECT_H

#include <stdint.h>

/* Stops with a word where the market refuses what this program never gives it. */
void expect_taken(const char *call, uint64_t refusal);

#endif
