/* Straight pieces of the outlines of dark areas. */
#ifndef OUTLINE_H
#define OUTLINE_H

#include "plane.h"

/* Who goes from `from` to `to` has the dark area on the right, in a picture whose y grows downwards. */
struct line {
    struct point from, to;
    double length;
    bool is_joined; /* whether it is made up of several straight pieces */
};

struct lines {
    struct line *items;
    int count, room;
};

enum { MOST_LINES = 16384 };

/* The straight pieces of at least `least` pixels in a plane of 0 and 1 with a frame of 0, the longest first, and each
 * line that several of them lie on: at most MOST_LINES. A piece leaves its chord by a pixel or so, or, if that is more,
 * by `bend` of its length. Stops at the limit. False if there is no memory. `out`, which lines_free frees, may have
 * room from before. The plane, which is owned, is the same again afterwards. */
bool find_lines(struct plane *dark, double least, double bend, struct limit *limit, struct lines *out);
void lines_free(struct lines *lines);

#endif
