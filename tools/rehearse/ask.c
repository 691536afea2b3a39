/* Looks at the command line of `rehearse` and does nothing else, so that ./rehearse can say what is wrong with it before it proves and
 * builds the market. Its exit status is that of enum asked. Layer 4. */
#include "options.h"

int main(int count, char **words)
{
    struct options options = {0};
    return (int)ask(&options, count, words);
}
