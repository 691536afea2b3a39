/* Lends Submit a message with one long field and a CheckSum that is not true, and prints where that field lies, and the value of 8: the address
 * of the first byte, in hexadecimal, how many bytes there are (of the field from its tag to its SOH), and how often the library is to
 * load each. Nothing but the library loads a byte from there, so that a trace of the program's loads tells how often it does
 * (.ci/tests/one-pass). Exit status 1 where Submit answers something else than it must. */
#include <inttypes.h>
#include <stdio.h>
#include <stdlib.h>
#include <string.h>

#include "kamurjesh.h"
#include "messages.h"

enum { FIELD = 512 };

static uint8_t table[KAMURJESH_TABLE_BYTES], area[KAMURJESH_LEAST_AREA], lent[1100];

static void must(int holds)
{
    if (!holds)
        exit(1);
}

static uint64_t open_market(void)
{
    const uint64_t mpid = 10, mode = KAMURJESH_CANCEL_NEWEST;
    return kamurjesh_open(table, sizeof table, (const uint8_t *)"V", 1, (const uint8_t *)"P", 1, (const uint8_t *)"350", 3, 1, &mpid, 1,
                          &mode, 1);
}

static uint64_t submit(const uint8_t *bytes, size_t length)
{
    uint64_t written;
    return kamurjesh_submit(table, sizeof table, bytes, length, area, sizeof area, &written);
}

/* A message whose field before 10 is the long one; no field of a new order has its tag. */
static struct message with_field(void)
{
    char body[FIELD + 64] = "11=ONCE|8059=";
    size_t n = strlen(body), end = strlen("11=ONCE|") + FIELD;
    memset(body + n, 'x', end - n);
    body[end - 1] = '|';
    body[end] = 0;
    return sent("D", body);
}

int main(void)
{
    struct message m = with_field();
    size_t ten = m.length - strlen("10=000|");
    must(open_market() == KAMURJESH_TAKEN);
    must(submit(m.bytes, m.length) == KAMURJESH_SESSION_REJECT); /* nothing is wrong with its frame, so this is read to the end */
    m.bytes[m.length - 2] ^= 1;                                  /* the last digit of the CheckSum */
    memcpy(lent, m.bytes, m.length);
    must(submit(lent, m.length) == KAMURJESH_GARBLED);
    printf("%" PRIxPTR " %d 1\n", (uintptr_t)&lent[ten - FIELD], FIELD);
    printf("%" PRIxPTR " %zu 2\n", (uintptr_t)&lent[strlen("8=")], strlen("FIX.4.2"));
}
