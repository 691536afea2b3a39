/* The book that is left, drawn. Layer 5. */
#ifndef CHART_H
#define CHART_H

#include <stdbool.h>

/* Writes the book as an SVG picture into a file: a bar for each level, by yield or price, the buys above and the sells below with the best ones in
 * the middle, each with its total and its number of orders. False where the file cannot be written, and errno says why. */
bool write_chart(const char *file);

#endif
