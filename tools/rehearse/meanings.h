/* What the codes in reports mean. Layer 2. */
#ifndef MEANINGS_H
#define MEANINGS_H

#include "parts.h"

/* The tables of words.def: 39 and 150, 54, 378, 373, 103, 102 of a cancel, 102 of a replacement. */
enum words { order_statuses, order_sides, restatements, session_reasons, order_reasons, cancel_reasons, replacement_reasons };

/* The words of a code in a table. */
const char *meaning_of(enum words table, struct part code);

/* Each says in words why a message was rejected, from the report that was written of it; no line end. */
void print_session_reject(struct part report);
void print_order_reject(struct part report);
void print_change_reject(struct part report);

#endif
