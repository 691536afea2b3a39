/* Why a message is garbled. Layer 1. */
#ifndef GARBLED_H
#define GARBLED_H

#include <stdbool.h>

#include "lines.h"

/* Prints the first reason that is found why the message is garbled, without a line end. Every reason by itself makes a message
 * garbled; which is named first is this program's choice. False where none is found, and then nothing is printed. */
bool print_garbled(const struct message *message);

#endif
