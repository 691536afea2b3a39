/* A file of messages taken in one go. Layer 5. */
#ifndef BATCH_H
#define BATCH_H

#include <stdbool.h>

/* Takes the messages of a file, which lie one behind another with | for SOH (line ends between them are left out), and prints their
 * reports and, last, how many were finished and where and why it stopped before the end. False where the file cannot be read, and
 * errno says why. */
bool take_batch(const char *file);

#endif
