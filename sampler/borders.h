/* Symbols in a field of modules, by their borders alone. */
#ifndef BORDERS_H
#define BORDERS_H

#include "layout.h"

enum { MOST_FIELD = MOST_SIDE + 24 }; /* modules each way */

/* The modules of a part of a lattice, row by row, MOST_FIELD to a row: DARK or LIGHT. */
struct field {
    int wide, high;
    uint8_t dark[MOST_FIELD * MOST_FIELD];
};

/* Where a border may be: the first column and row in the field, the extent of the upright symbol, by how many right
 * angles it is turned, and how clear it is. */
struct border {
    int x, y, turns;
    struct extent extent;
    bool is_inverted; /* whether its dark modules are light */
    double score;     /* how many more modules are right than by chance, beside the root of how many there are */
};

/* Writes at most `room` borders of symbols of any shape, the clearest first, and returns their number; -1 if there is
 * no memory. */
int find_borders(const struct field *field, const struct layouts *shapes, struct border *out, int room);

#endif
