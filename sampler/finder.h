/* Where the solid borders of a symbol may be: two straight outlines of about one length that meet at a corner. */
#ifndef FINDER_H
#define FINDER_H

#include "found.h"
#include "outline.h"

struct elbow {
    struct point corner; /* bottom left of the upright symbol */
    struct point top;    /* top left: where the left border ends */
    struct point right;  /* bottom right: where the bottom border ends */
    double across, upwards; /* about the width of a module along the bottom border and along the left one, in pixels */
    bool is_long;        /* whether it is too long for a square */
    bool is_joined;      /* whether one of its borders is made up of several pieces */
    bool is_lively;      /* whether dark and light follow one another inside as often as a symbol's modules do */
    double score;
};

/* Elbows: first the lively ones whose borders are of one piece each, then the other lively ones; and of each of these
 * the long ones last, then by their scores. */
struct elbows {
    struct elbow *items;
    int count, room;
    int whole, lively; /* how many are lively, and of these have borders of one piece each */
    int tried;         /* how many were tried, from the first on */
};

enum { MOST_ELBOWS = 8192 };

/* Where elbows are looked for: a level, its lines, of which the longest are the first, and what is known of the
 * picture, `scale` pixels of which are one of the level. */
struct sought {
    const struct plane *dark;
    const struct lines *lines;
    const struct known *known;
    double scale;
};

/* Finds at most MOST_ELBOWS, none of which embraces a part of what is known. Stops at the limit. False if there is no
 * memory. `out`, which elbows_free frees, may have room from before. */
bool find_elbows(const struct sought *in, struct limit *limit, struct elbows *out);
void elbows_free(struct elbows *elbows);

#endif
