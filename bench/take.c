/* For bench/python: the time that one message takes in C, submitted and run to its end, in a market in which so many orders rest. The message is an
 * IOC that meets nobody. Prints the best of nine rounds of 2,000 in microseconds: take RESTING. */
#define _POSIX_C_SOURCE 200809L
#include <stdio.h>
#include <stdlib.h>
#include <string.h>
#include <time.h>

#include "kamurjesh.h"

static uint8_t table[KAMURJESH_TABLE_BYTES], area[65536];

/* A message from its fields, from 35 on; gives its length. */
static size_t message(uint8_t *to, size_t room, const char *fields)
{
    unsigned sum = 0;
    int length = snprintf((char *)to, room, "8=FIX.4.2\0019=%zu\001%s", strlen(fields), fields);
    for (int i = 0; i < length; i++)
        sum += to[i];
    length += snprintf((char *)to + length, room - (size_t)length, "10=%03u\001", sum % 256);
    return (size_t)length;
}

static void take(unsigned long name, int side, const char *yield, int tif)
{
    char fields[512];
    uint8_t bytes[1024];
    uint64_t length, reports, steps;
    snprintf(fields, sizeof fields,
             "35=D\00134=1\00149=P\00152=20261116-09:00:00\00156=V\00111=o%lu\00121=1\00138=100\00140=2\00144=%s\00147=A\00154=%d\00155=350\001"
             "59=%d\00160=20261116-09:00:00\001109=10\0018060=1\001",
             name, yield, side, tif);
    if (kamurjesh_submit(table, sizeof table, bytes, message(bytes, sizeof bytes, fields), area, sizeof area, &length) != 0 ||
        kamurjesh_run(table, sizeof table, area, sizeof area, 1000, &length, &reports, &steps) != 0)
        exit(1);
}

static double now(void)
{
    struct timespec time;
    clock_gettime(CLOCK_MONOTONIC, &time);
    return (double)time.tv_sec * 1e6 + (double)time.tv_nsec / 1e3;
}

int main(int count, char **words)
{
    const uint64_t mpids[] = {10}, modes[] = {KAMURJESH_CANCEL_NEWEST};
    const uint8_t venue[] = {'V'}, port[] = {'P'}, code[] = {'3', '5', '0'};
    unsigned long name = 0, resting = count == 2 ? strtoul(words[1], NULL, 10) : 0;
    double best = 1e9;
    if (kamurjesh_open(table, sizeof table, venue, 1, port, 1, code, 3, 1, mpids, 1, modes, 1) != 0)
        return 1;
    while (name < resting)
        take(name++, 2, "0.100", 0);
    for (int round = 0; round < 9; round++) {
        double began = now();
        for (int i = 0; i < 2000; i++)
            take(name++, 1, "0.200", 3);
        double each = (now() - began) / 2000;
        best = each < best ? each : best;
    }
    printf("%.2f\n", best);
    return 0;
}
