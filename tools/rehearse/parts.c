/* Takes reports apart. Layer 1. */
#include "parts.h"

#include <stdio.h>
#include <string.h>

#include "kamurjesh.h"
#include "lines.h"

struct part value_of(struct part report, uint64_t tag)
{
    uint64_t start, length;
    struct part value = {report.bytes, 0};
    if (kamurjesh_field(report.bytes, report.length, tag, &start, &length)) {
        value.bytes += start;
        value.length = (size_t)length;
    }
    return value;
}

bool part_is(struct part part, const char *text)
{
    return part.length == strlen(text) && memcmp(part.bytes, text, part.length) == 0;
}

void print_part(struct part part)
{
    for (size_t i = 0; i < part.length; i++)
        putchar(part.bytes[i] == SOH ? '|' : part.bytes[i]);
}

uint64_t number_in(struct part digits)
{
    uint64_t number = 0;
    for (size_t i = 0; i < digits.length; i++)
        number = 10 * number + (uint64_t)(digits.bytes[i] - '0');
    return number;
}

/* 9 counts the bytes behind its own SOH, and 10 has seven more. */
bool take_report(struct part *reports, struct part *report)
{
    if (reports->length == 0)
        return false;
    struct part digits = value_of(*reports, 9);
    size_t front = (size_t)(digits.bytes - reports->bytes) + digits.length + 1;
    *report = (struct part){reports->bytes, front + (size_t)number_in(digits) + 7};
    reports->bytes += report->length;
    reports->length -= report->length;
    return true;
}
