/* Bar codes, by the widths of bars and spaces along lines of pixels. */
#ifndef BARS_H
#define BARS_H

#include <stdbool.h>

#include "runs.h"

/* A bar code as lines beside one another show it. */
struct bars {
    const char *name;        /* in words; NULL if there is none */
    int first, last, lines;  /* the first line and the last, and how many show it */
    int from[2], to[2];      /* where it begins and ends, on these two */
    double module;           /* pixels */
};

enum { MOST_BARS = 8 };

/* Looks for bar codes on a line, which comes after those before, and takes note of them. */
void look_for_bars(const struct runs *runs, int line, struct bars seen[MOST_BARS]);

/* The bar code that most lines show; NULL if there is none that is as high as one. */
const struct bars *highest_bars(const struct bars seen[MOST_BARS]);

#endif
