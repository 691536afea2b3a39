/* Copies of reports, and why there is none. Layer 2. */
#include "feed.h"

#include <inttypes.h>
#include <stdio.h>
#include <string.h>

#include "expect.h"
#include "kamurjesh.h"
#include "kind.h"

static struct feed feed;
static uint64_t next;
static uint8_t area[KAMURJESH_LEAST_AREA];

void open_feed(struct feed setup)
{
    feed = setup;
    next = 1;
}

static uint64_t shows(void)
{
    if (feed.group == NULL)
        return KAMURJESH_SHOWS_PORT;
    return feed.port == NULL ? KAMURJESH_SHOWS_GROUP : KAMURJESH_SHOWS_BOTH;
}

static struct part identifier(const char *text)
{
    return (struct part){(const uint8_t *)text, text == NULL ? 0 : strlen(text)};
}

/* Prints what is wrong with an identifier that 109 shows; false if nothing is. */
static bool print_wrong(const char *name, const char *text)
{
    struct part id = identifier(text);
    if (text == NULL)
        return false;
    if (id.length == 0) {
        printf("the identifier of the %s is empty", name);
        return true;
    }
    for (size_t i = 0; i < id.length; i++)
        if (id.bytes[i] < 0x21 || id.bytes[i] > 0x7e) {
            printf("byte %zu of the %s's identifier is %02X hex, outside 21 to 7E", i + 1, name, id.bytes[i]);
            return true;
        }
    return false;
}

static void print_bad_feed(void)
{
    printf("    copy refused (17): ");
    size_t length = identifier(feed.port).length + (shows() == KAMURJESH_SHOWS_BOTH) + identifier(feed.group).length;
    if (!print_wrong("port", feed.port) && !print_wrong("group", feed.group))
        printf("109 would have %zu characters, and has at most %zu", length, kind->longest_109);
    putchar('\n');
}

static void print_taken(uint64_t length, uint64_t after)
{
    if (length > 0) {
        printf("    copy %" PRIu64 ": ", next);
        print_part((struct part){area, (size_t)length});
        putchar('\n');
    }
    next = after;
}

void print_copy(struct part report)
{
    struct part port = identifier(feed.port), group = identifier(feed.group);
    uint64_t length, after;
    if (feed.subscription == 0)
        return;
    uint64_t refusal = kind->copy(report.bytes, report.length, feed.subscription, shows(), port.bytes, port.length, group.bytes,
                                  group.length, next, area, sizeof area, &length, &after);
    switch (refusal) {
    case KAMURJESH_TAKEN: print_taken(length, after); break;
    case KAMURJESH_BAD_FEED: print_bad_feed(); break;
    case KAMURJESH_NUMBERS_SPENT: puts("    copy refused (4): the feed's numbers are used up"); break;
    default: expect_taken("Copy", refusal);
    }
}
