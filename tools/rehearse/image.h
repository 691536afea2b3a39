/* The market kept in a file between rehearsals. Layer 5. */
#ifndef IMAGE_H
#define IMAGE_H

#include <stdbool.h>

#include "opening.h"

/* Writes the market into a file: into a new one beside it, which is synced and then takes its name, so that whenever the machine stops
 * there is the file as it was or the file as it will be. False where that fails, and errno says why. */
bool save_market(const char *file);

/* Reads the market back from a file, in place of opening one, and runs what was in work to its end. Where an opening is given, it must have
 * those settings. False after one line on standard error that says why not. */
bool restore_market(const char *file, const struct opening *opening);

#endif
