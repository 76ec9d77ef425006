/* How many modules a square has whose corners are known, by how evenly its alternating borders turn. */
#ifndef TURNS_H
#define TURNS_H

#include "layout.h"
#include "plane.h"
#include "warp.h"

/* So much work that is. */
enum { WORK_OF_TURNS = 600000 };

/* The side for which the wave of that length along the upper or the right border is strongest, beside all that differs
 * there; the warp is that of a square of `side` modules with the same corners. Gives how strong it is, too. */
int side_by_turns(const struct plane *picture, const struct warp *warp, int side, const struct layouts *shapes,
                  double *strength);

#endif
