/* Codes and tags in the words of words.def, and the three kinds of reject told with them. Layer 2. */
#include "meanings.h"

#include <stdio.h>
#include <string.h>

#include "kind.h"

/* The rows of words.def; in each table the last one, for any code, ends a search. */
static const struct {
    enum words table;
    const char *code, *words;
} rows[] = {
#define WORDS(table, code, words) {table, code, words},
#include "words.def"
};

/* In which markets a tag is called so and takes these values. */
enum markets { in_both, in_bonds, in_equities };

static const struct {
    const char *tag, *name, *values;
    enum markets of;
} tags[] = {
#define TAG(tag, name, values, market) {tag, name, values, in_##market},
#include "words.def"
};

const char *meaning_of(enum words table, struct part code)
{
    size_t i = 0;
    while (rows[i].table != table || (!part_is(code, rows[i].code) && strcmp(rows[i].code, "*") != 0))
        i++;
    return rows[i].words;
}

/* `373=5`, for example, and words behind it. */
static void print_code(struct part report, uint64_t tag)
{
    printf("%d=", (int)tag);
    print_part(value_of(report, tag));
    printf(", ");
}

static void print_meaning(struct part report, uint64_t tag, enum words table)
{
    print_code(report, tag);
    printf("%s", meaning_of(table, value_of(report, tag)));
}

void print_session_reject(struct part report)
{
    struct part tag = value_of(report, 371);
    enum markets here = kind == &equities ? in_equities : in_bonds;
    printf("session reject: ");
    print_meaning(report, 373, session_reasons);
    putchar(' ');
    print_part(tag);
    for (size_t i = 0; i < sizeof tags / sizeof *tags; i++)
        if (part_is(tag, tags[i].tag) && (tags[i].of == in_both || tags[i].of == here))
            printf(" (%s: %s)", tags[i].name, tags[i].values);
}

void print_order_reject(struct part report)
{
    printf("order rejected: ");
    if (part_is(value_of(report, 103), "1")) {
        print_code(report, 103);
        printf("unknown %s in tag 55", kind->code_name);
    } else {
        print_meaning(report, 103, order_reasons);
    }
}

/* An order that tag 41 finds is named with what has become of it. It is unknown nevertheless under another bond code or symbol. */
static void print_named_order(struct part report)
{
    struct part order = value_of(report, 37), status = value_of(report, 39);
    if (part_is(order, "NONE")) {
        printf(": none has the ClOrdID of tag 41");
        return;
    }
    if (part_is(value_of(report, 102), "1"))
        printf(" under the %s of tag 55", kind->code_name);
    printf("; order ");
    print_part(order);
    printf(" is %s, 39=", meaning_of(order_statuses, status));
    print_part(status);
}

void print_change_reject(struct part report)
{
    bool replaces = part_is(value_of(report, 434), "2");
    printf(replaces ? "replacement rejected: " : "cancel rejected: ");
    print_meaning(report, 102, replaces ? replacement_reasons : cancel_reasons);
    print_named_order(report);
}
