/* The two markets. Layer 0. */
#include "kind.h"

#include "kamurjesh.h"

const struct kind bonds = {
    .code_name = "bond code",
    .quote_name = "yield",
    .decimals = 3,
    .unit = 1000,
    .longest_109 = 30,
    .tells_sides = false,
    .open = kamurjesh_open,
    .submit = kamurjesh_submit,
    .run = kamurjesh_run,
    .depth = kamurjesh_depth,
    .copy = kamurjesh_copy,
    .load = kamurjesh_load,
    .save = kamurjesh_save,
    .restore = kamurjesh_restore,
};

const struct kind equities = {
    .code_name = "symbol",
    .quote_name = "price",
    .decimals = 1,
    .unit = 10,
    .longest_109 = 20,
    .tells_sides = true,
    .open = kamurjesh_equities_open,
    .submit = kamurjesh_equities_submit,
    .run = kamurjesh_equities_run,
    .depth = kamurjesh_equities_depth,
    .copy = kamurjesh_equities_copy,
    .load = kamurjesh_equities_load,
    .save = kamurjesh_equities_save,
    .restore = kamurjesh_equities_restore,
};

const struct kind *kind = &bonds;
