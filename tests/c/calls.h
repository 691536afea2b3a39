/* The calls of the bond market and those of the equities market by one name, so that tests and measurements can be of either. */
#ifndef CALLS_H
#define CALLS_H

#include "kamurjesh.h"

struct calls {
    uint64_t (*open)(uint8_t *, size_t, const uint8_t *, size_t, const uint8_t *, size_t, const uint8_t *, size_t, uint64_t,
                     const uint64_t *, size_t, const uint64_t *, size_t);
    uint64_t (*submit)(uint8_t *, size_t, const uint8_t *, size_t, uint8_t *, size_t, uint64_t *);
    uint64_t (*run)(uint8_t *, size_t, uint8_t *, size_t, uint64_t, uint64_t *, uint64_t *, uint64_t *);
    uint64_t (*load)(uint8_t *, size_t, const uint8_t *, size_t, uint8_t *, size_t, uint64_t *, uint64_t *, uint64_t *, uint64_t *);
    uint64_t (*depth)(const uint8_t *, size_t, uint64_t, uint64_t, uint64_t *, int64_t *, uint64_t *, uint64_t *);
    uint64_t (*top)(const uint8_t *, size_t, uint64_t, uint64_t *, int64_t *, uint64_t *, uint64_t *);
    uint64_t (*read)(const uint8_t *, size_t, uint64_t *);
    uint64_t (*copy)(const uint8_t *, size_t, uint64_t, uint64_t, const uint8_t *, size_t, const uint8_t *, size_t, uint64_t, uint8_t *,
                     size_t, uint64_t *, uint64_t *);
    uint64_t (*copy_read)(const uint8_t *, size_t, uint64_t *);
    uint64_t (*save)(const uint8_t *, size_t, uint8_t *, size_t);
    uint64_t (*restore)(uint8_t *, size_t, const uint8_t *, size_t, uint64_t *);
};

static const struct calls bond_calls = {kamurjesh_open,      kamurjesh_submit, kamurjesh_run,  kamurjesh_load,
                                        kamurjesh_depth,     kamurjesh_top,    kamurjesh_read, kamurjesh_copy,
                                        kamurjesh_copy_read, kamurjesh_save,   kamurjesh_restore};
static const struct calls equities_calls = {kamurjesh_equities_open,      kamurjesh_equities_submit, kamurjesh_equities_run,
                                            kamurjesh_equities_load,      kamurjesh_equities_depth,  kamurjesh_equities_top,
                                            kamurjesh_equities_read,      kamurjesh_equities_copy,   kamurjesh_equities_copy_read,
                                            kamurjesh_equities_save,      kamurjesh_equities_restore};

#endif
