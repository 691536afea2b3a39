/* What a market is opened with, as a section [MARKET] of a settings file says it. Layer 1.
 *
 *     [DEFAULT]                     what holds for every market that does not say otherwise
 *     Venue=V                       1 to 8 characters
 *     Port=P                        1 to 8 characters
 *
 *     [MARKET]                      one for each market
 *     Kind=bonds                    bonds, or equities
 *     Code=350                      bonds: 1 to 9 digits; equities have Symbol=, 1 to 9 characters
 *     FirstNumber=1                 of the first report; 1 where it is not said
 *     MPID 10=cancel-newest         one to eight of them: an MPID and its mode, cancel-newest, cancel-oldest or decrement
 *     MPID 11=decrement
 *
 * A market that has MPIDs of its own has none of [DEFAULT]. Sections [SESSION] are a FIX engine's, in its words; in a file that has some,
 * [DEFAULT] may have keys of theirs too. */
#ifndef OPENING_H
#define OPENING_H

#include <stdint.h>

#include "settings.h"

#ifdef __cplusplus
extern "C" {
#endif

enum { MOST_MPIDS = 8 };

/* As kamurjesh_open, or kamurjesh_equities_open, takes it. */
struct opening {
    bool equities;
    char venue[9], port[9], code[10]; /* the code is the symbol of equities */
    uint64_t first;
    uint64_t mpids[MOST_MPIDS], modes[MOST_MPIDS]; /* modes as in kamurjesh_mode */
    size_t count;                                  /* of the MPIDs */
    size_t line;                                   /* of its section */
};

/* The markets of a file, in the order of the file; no two have the same code or symbol. */
struct openings {
    struct opening *markets;
    size_t count;
};

/* The markets that the settings say, at least one. False with the first fault where anything is wrong with any of them; there is nothing
 * to free then. */
bool openings_of(struct openings *openings, const struct settings *settings, struct fault *fault);

/* The same of a file. */
bool openings_read(struct openings *openings, const char *file, struct fault *fault);

void openings_free(struct openings *openings);

/* The market of this code or symbol; NULL where there is none. */
const struct opening *openings_find(const struct openings *openings, const char *code);

#ifdef __cplusplus
}
#endif

#endif
