/* rehearse [OPTION].. [FILE]: takes a file of messages into a market and says of each line what the market answers, and why.
 * Each file of this folder says its layer in its first words, and includes files of lower layers alone. Layer 6. */
#include <errno.h>
#include <string.h>

#include "batch.h"
#include "chart.h"
#include "feed.h"
#include "image.h"
#include "kind.h"
#include "lines.h"
#include "market.h"
#include "options.h"

/* False where the input could not be read to its end. */
static bool take_lines(FILE *input)
{
    static struct message message;
    for (unsigned long number = 1; next_line(input, &message); number++) {
        if (ferror(input))
            return false;
        printf("line %lu: ", number);
        take_message(&message);
    }
    return !ferror(input);
}

/* One line on standard error, and the exit status. */
static int complain_of_output(const char *file)
{
    fprintf(stderr, "rehearse: cannot write %s: %s\n", file, strerror(errno));
    return 1;
}

int main(int count, char **words)
{
    struct options options = {0};
    enum asked asked = ask(&options, count, words);
    if (asked != ASKED_TO_REHEARSE)
        return asked == ASKED_FOR_HELP ? 0 : 2;
    kind = options.opening.equities ? &equities : &bonds;
    open_feed(options.feed);
    if (options.restore == NULL)
        open_market(&options.opening);
    else if (!restore_market(options.restore, options.market == NULL ? NULL : &options.opening))
        return 2;
    if (options.batch != NULL && !take_batch(options.batch)) {
        fprintf(stderr, "rehearse: cannot read %s: %s\n", options.batch, strerror(errno));
        return 2;
    }
    if (options.input != NULL && !take_lines(options.input)) {
        complain_of_input(&options);
        return 2;
    }
    print_depth();
    if (fflush(stdout) != 0 || ferror(stdout)) {
        perror("rehearse: cannot write");
        return 1;
    }
    if (options.chart != NULL && !write_chart(options.chart))
        return complain_of_output(options.chart);
    if (options.save != NULL && !save_market(options.save))
        return complain_of_output(options.save);
    return 0;
}
