/* What the command line of `rehearse` asks for. Layer 3. */
#ifndef OPTIONS_H
#define OPTIONS_H

#include <stdbool.h>
#include <stdio.h>

#include "feed.h"
#include "opening.h"

struct options {
    bool help;
    bool equities;          /* the usual equities market, and not the usual bond market */
    const char *market;     /* the settings file; NULL for none */
    const char *issue;      /* the code or symbol of its market that is asked for; NULL for the first */
    struct opening opening; /* the market that is asked for */
    struct feed feed;
    const char *chart;   /* NULL for none */
    const char *batch;   /* NULL for none */
    const char *save;    /* NULL for none */
    const char *restore; /* NULL for none */
    const char *file;    /* NULL, or -, for standard input; with a batch, NULL is for none */
    FILE *input;         /* NULL for none */
};

/* The values are also the exit status of ask.c. */
enum asked { ASKED_TO_REHEARSE = 0, ASKED_FOR_HELP = 1, ASKED_BADLY = 2 };

/* Reads the words of the command line and opens the input. Help is printed where it is asked for; where the words mean nothing or
 * the file cannot be opened, one line on standard error says why. */
enum asked ask(struct options *options, int count, char **words);

/* One line on standard error: what went wrong with the input, as errno has it. */
void complain_of_input(const struct options *options);

#endif
