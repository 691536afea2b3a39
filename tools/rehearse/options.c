/* The options of `rehearse`, a row each in one table. Layer 3. */
#include "options.h"

#include <errno.h>
#include <string.h>

#include "kamurjesh.h"

static const char help_before[] =
    "usage: rehearse [OPTION].. [FILE]\n"
    "\n"
    "Takes the messages of FILE into a market, one a line with | for SOH, and says of each line what the market answers:\n"
    "taken, or why not. The reports follow, with | for SOH, and in the end the depth, buys then sells, best first.\n"
    "With no FILE, or with -, it reads standard input. With --feed, each report that the feed copies has its copy behind it.\n"
    "With --chart, the levels of the depth are drawn as bars, by yield or price with the best in the middle, in the ratio of their\n"
    "totals. With --equities, the market is the one for shares, and the words of a report tell the order's side and price.\n"
    "\n";
static const char help_after[] =
    "\n"
    "The market is that of ./book: venue V, port P, bond code 350, MPIDs 10 to 14, all Cancel Newest, first report number 1.\n"
    "The equities market has symbol 7203 in place of the bond code, and is as this one else.\n"
    "\n"
    "With --market it is one of your own, the first of the settings file or the one that --issue names. The file is written as\n"
    "QuickFIX's are:\n"
    "\n"
    "  # what holds for every market that does not say otherwise\n"
    "  [DEFAULT]\n"
    "  Venue=V\n"
    "  Port=P\n"
    "  # a section for each market: Kind is bonds, with a Code, or equities, with a Symbol\n"
    "  [MARKET]\n"
    "  Kind=equities\n"
    "  Symbol=7203\n"
    "  FirstNumber=1\n"
    "  # one to eight MPIDs, each with its mode: cancel-newest, cancel-oldest or decrement\n"
    "  MPID 10=cancel-oldest\n"
    "  MPID 11=decrement\n"
    "\n"
    "What is wrong with it is told with its line. Sections [SESSION] are passed over: they are for a live market's FIX sessions.\n"
    "\n"
    "In the file of --batch the messages lie one behind another, with | for SOH and line ends or none between them; each is found by\n"
    "its own BodyLength, and it stops where one cannot be. With --batch and no other FILE no lines are read.\n"
    "\n"
    "With --restore the market is the one that --save wrote, of the same kind; a file that was changed since is told with its block, and with\n"
    "--market, one that has other settings is not taken.\n"
    "\n"
    "A line ends with LF. Every other byte belongs to its message: a CR at the end makes it garbled, as ./book takes it, and\n"
    "the answer says so. A last line needs no LF.\n"
    "\n"
    "109 of the copies shows what is given of --port and --group, with a hyphen between; copies are numbered from 1.\n"
    "\n"
    "Exit status: 0, whatever the market answers; 1 if the output, the chart or the market cannot be written; 2 for bad\n"
    "usage, an unreadable input, wrong settings or a market that cannot be read back.\n";

/* Takes an option, words[0], and its values, if it has any, behind it (the list ends with NULL). Gives how many words that were, or
 * 0 after saying on standard error what is wrong. */
typedef int taker(struct options *options, char **words);

static int complain(const char *what, const char *word)
{
    fprintf(stderr, "rehearse: %s: %s; --help tells more\n", what, word);
    return 0;
}

/* Takes the one value of an option. */
static int take_value(const char **value, char **words)
{
    if (words[1] == NULL)
        return complain("it needs a value", words[0]);
    *value = words[1];
    return 2;
}

static int take_feed(struct options *options, char **words)
{
    const char *subscription = NULL;
    int taken = take_value(&subscription, words);
    if (taken == 0)
        return 0;
    if (strcmp(subscription, "full") == 0)
        options->feed.subscription = KAMURJESH_FULL;
    else if (strcmp(subscription, "reconciliation") == 0)
        options->feed.subscription = KAMURJESH_RECONCILIATION;
    else
        return complain("neither full nor reconciliation", subscription);
    return taken;
}

static int take_port(struct options *options, char **words)
{
    return take_value(&options->feed.port, words);
}

static int take_group(struct options *options, char **words)
{
    return take_value(&options->feed.group, words);
}

static int take_chart(struct options *options, char **words)
{
    return take_value(&options->chart, words);
}

static int take_batch_file(struct options *options, char **words)
{
    return take_value(&options->batch, words);
}

static int take_save(struct options *options, char **words)
{
    return take_value(&options->save, words);
}

static int take_restore(struct options *options, char **words)
{
    return take_value(&options->restore, words);
}

static int take_market(struct options *options, char **words)
{
    return take_value(&options->market, words);
}

static int take_issue(struct options *options, char **words)
{
    return take_value(&options->issue, words);
}

static int take_equities(struct options *options, char **words)
{
    (void)words;
    options->equities = true;
    return 1;
}

static int take_help(struct options *options, char **words)
{
    (void)words;
    options->help = true;
    return 1;
}

static const struct row {
    const char *option; /* with its values, as --help shows it */
    const char *help;
    taker *take;
} rows[] = {
    {"--equities", "rehearse the equities market, not the bond market", take_equities},
    {"--market FILE", "rehearse a market of your own, whose settings this file has", take_market},
    {"--issue CODE", "of the markets of the file, the one of this bond code or symbol", take_issue},
    {"--feed SUBSCRIPTION", "print the copies of a feed: full, or reconciliation for trades alone", take_feed},
    {"--port ID", "the order entry port that 109 of the copies shows", take_port},
    {"--group ID", "the trade group that it shows", take_group},
    {"--chart FILE", "draw the book that is left into this file, an SVG picture", take_chart},
    {"--batch FILE", "first take the messages of this file in one go, and print their reports", take_batch_file},
    {"--save FILE", "write the market that is left into this file, for another day", take_save},
    {"--restore FILE", "go on with the market that was written into this file", take_restore},
    {"--help", "print this", take_help},
};
enum { ROWS = sizeof rows / sizeof *rows };

static void print_help(void)
{
    fputs(help_before, stdout);
    for (size_t i = 0; i < ROWS; i++)
        printf("  %-20s %s\n", rows[i].option, rows[i].help);
    fputs(help_after, stdout);
}

static int take_option(struct options *options, char **words)
{
    for (size_t i = 0; i < ROWS; i++) {
        size_t n = strcspn(rows[i].option, " ");
        if (strlen(words[0]) == n && strncmp(words[0], rows[i].option, n) == 0)
            return rows[i].take(options, words);
    }
    return complain("no such option", words[0]);
}

static int take_file(struct options *options, const char *file)
{
    if (options->file != NULL)
        return complain("more than one file", file);
    options->file = file;
    return 1;
}

static int take_words(struct options *options, char **words)
{
    bool is_option = words[0][0] == '-' && words[0][1] != '\0';
    return is_option ? take_option(options, words) : take_file(options, words[0]);
}

/* A feed shows something in 109, and an identifier is for a feed. */
static bool is_feed_whole(const struct feed *feed)
{
    bool shows = feed->port != NULL || feed->group != NULL;
    if (feed->subscription != 0 && !shows)
        return complain("a feed needs one or both of", "--port, --group");
    if (feed->subscription == 0 && shows)
        return complain("there is no --feed for", feed->port != NULL ? "--port" : "--group");
    return true;
}

/* The market of ./book, or that of ./book --equities. */
static void set_usual(struct opening *opening, bool is_equities)
{
    *opening = (struct opening){
        .equities = is_equities,
        .venue = "V",
        .port = "P",
        .code = "350",
        .first = 1,
        .mpids = {10, 11, 12, 13, 14},
        .modes = {KAMURJESH_CANCEL_NEWEST, KAMURJESH_CANCEL_NEWEST, KAMURJESH_CANCEL_NEWEST, KAMURJESH_CANCEL_NEWEST,
                  KAMURJESH_CANCEL_NEWEST},
        .count = 5,
    };
    if (is_equities)
        strcpy(opening->code, "7203");
}

/* One line on standard error: what is wrong with the settings file. */
static void complain_of_market(const char *file, const struct fault *fault)
{
    if (fault->line == 0)
        fprintf(stderr, "rehearse: cannot read %s: %s\n", file, fault->reason);
    else
        fprintf(stderr, "rehearse: %s, line %zu: %s\n", file, fault->line, fault->reason);
}

/* Takes the market that is asked for from the settings file. */
static bool read_market(struct options *options)
{
    struct openings openings;
    struct fault fault;
    if (!openings_read(&openings, options->market, &fault)) {
        complain_of_market(options->market, &fault);
        return false;
    }
    const struct opening *asked = options->issue == NULL ? &openings.markets[0] : openings_find(&openings, options->issue);
    if (asked != NULL)
        options->opening = *asked;
    else
        complain("no market of the settings file trades it", options->issue);
    openings_free(&openings);
    return asked != NULL;
}

/* The market that is asked for; false after saying what is wrong. */
static bool take_opening(struct options *options)
{
    set_usual(&options->opening, options->equities);
    if (options->market != NULL && options->equities)
        return complain("the settings file says the kind of its markets", "--equities");
    if (options->market == NULL && options->issue != NULL)
        return complain("there is no --market for", "--issue");
    return options->market == NULL || read_market(options);
}

static bool is_standard_input(const struct options *options)
{
    return options->file == NULL || strcmp(options->file, "-") == 0;
}

/* Opens the input, if lines are asked for; false where it cannot be. */
static bool open_input(struct options *options)
{
    if (options->file == NULL && options->batch != NULL)
        return true;
    options->input = is_standard_input(options) ? stdin : fopen(options->file, "rb");
    return options->input != NULL;
}

void complain_of_input(const struct options *options)
{
    fprintf(stderr, "rehearse: cannot read %s: %s\n", is_standard_input(options) ? "standard input" : options->file, strerror(errno));
}

enum asked ask(struct options *options, int count, char **words)
{
    int taken;
    for (int i = 1; i < count; i += taken)
        if ((taken = take_words(options, words + i)) == 0)
            return ASKED_BADLY;
    if (options->help) {
        print_help();
        return ASKED_FOR_HELP;
    }
    if (!is_feed_whole(&options->feed) || !take_opening(options))
        return ASKED_BADLY;
    if (!open_input(options)) {
        complain_of_input(options);
        return ASKED_BADLY;
    }
    return ASKED_TO_REHEARSE;
}
