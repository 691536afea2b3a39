/* Prints reports, each with what it says in words. Layer 3. */
#include "reports.h"

#include <stdio.h>

#include "feed.h"
#include "kind.h"
#include "meanings.h"
#include "minimum.h"

/* The side of an order and its price, and of a trade how much of it traded at which price. */
static void print_side(struct part report)
{
    struct part quantity = value_of(report, 32);
    printf(", %s at ", meaning_of(order_sides, value_of(report, 54)));
    print_part(value_of(report, 44));
    if (quantity.length == 0)
        return;
    printf(", ");
    print_part(quantity);
    printf(" at ");
    print_part(value_of(report, 31));
}

/* Which order, and what has become of it; of the two rejects that are no execution reports, that they are rejects. */
static void print_words(struct part report)
{
    struct part happened = value_of(report, 150), reason = value_of(report, 378), order = value_of(report, 37);
    if (happened.length == 0 || part_is(order, "NONE")) {
        printf("reject");
        return;
    }
    printf("order ");
    print_part(order);
    if (kind->tells_sides)
        print_side(report);
    printf(", %s", meaning_of(order_statuses, happened));
    if (reason.length == 0)
        return;
    printf(", ");
    if (is_killed(report))
        print_killed(report);
    else
        printf("%s", meaning_of(restatements, reason));
}

void print_reports(struct part reports)
{
    for (struct part report; take_report(&reports, &report);) {
        printf("  ");
        print_words(report);
        printf(": ");
        print_part(report);
        putchar('\n');
        print_copy(report);
    }
}
