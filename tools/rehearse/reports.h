/* The reports that the market writes, told one by one. Layer 3. */
#ifndef REPORTS_H
#define REPORTS_H

#include "parts.h"

/* Prints each of the reports that stand one behind the other: a line with a few words, a colon, and its bytes with | for SOH; and
 * behind it what the feed makes of it. */
void print_reports(struct part reports);

#endif
