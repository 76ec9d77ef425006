/* The command line. */
#ifndef OPTIONS_H
#define OPTIONS_H

#include <stdbool.h>

#include "../ecc200_sample.h"

/* The program's status: the worst of what happened. */
enum outcome {
    FINE = 0,
    NONE_FOUND = 1,
    WRONG_USAGE = 2,
    FAILED = 3,
    ENDED_EARLY = 4
};

struct options {
    ecc200_sample_search search;
    bool all, corners, json, unread, quality;
};

/* Reads the options, and returns the index of the first file. Ends the program on --help, --version and a wrong usage.
 */
int options_read(int count, char **words, struct options *out);

#endif
