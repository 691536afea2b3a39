/* Orders that could not trade their minimum. Layer 2. */
#ifndef MINIMUM_H
#define MINIMUM_H

#include "lines.h"
#include "parts.h"

/* Keeps the table as it is before a message is submitted, and the message, for print_killed. */
void note_before(const uint8_t *table, const struct message *message);

/* From here on the message is not known: of a kill it is not said how much could have traded. */
void forget_noted(void);

/* Whether a report says that an order was canceled whole because it could not trade its minimum. */
bool is_killed(struct part report);

/* Says of such a report, which is of the message noted last, how much could have traded; no line end. */
void print_killed(struct part report);

#endif
