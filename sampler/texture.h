/* Where a picture has texture, as modules make it: many steep places close together. */
#ifndef TEXTURE_H
#define TEXTURE_H

#include "plane.h"

/* The upper left corner of a window of WINDOW_SIDE pixels each way, around the middle of what is steep there. */
struct spot {
    int x, y;
    double steepness;
};

/* Writes at most `room` spots, none steeper than `most`, the steepest first, and returns their number, or -1 if there
 * is no memory. */
int find_spots(const struct plane *steep, int most, struct limit *limit, struct spot *out, int room);

#endif
