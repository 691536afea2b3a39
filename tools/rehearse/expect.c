/* A refusal that is not to be. Layer 0. */
#include "expect.h"

#include <inttypes.h>
#include <stdio.h>
#include <stdlib.h>

#include "kamurjesh.h"

void expect_taken(const char *call, uint64_t refusal)
{
    if (refusal == KAMURJESH_TAKEN)
        return;
    fflush(stdout);
    fprintf(stderr, "rehearse: %s was refused with %" PRIu64 "\n", call, refusal);
    exit(1);
}
