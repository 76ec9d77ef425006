/* A placement made exact by its witnesses: the edges between border modules whose colours are known. */
#ifndef WITNESS_H
#define WITNESS_H

#include "layout.h"
#include "plane.h"
#include "warp.h"

/* How much work a round of a fit to the edges of a layout is. */
int64_t work_of_fitting(const struct layout *layout);

/* Moves the projection of a warp so that the edges in the part come to lie where the picture shows them. `stiff` says
 * how much it is held back: 0.01 for a whole symbol, more for small parts. Returns the share of edges that the picture
 * shows near where they should be, before the last round; or before the first one, if it is below `least` then, which
 * ends that. */
double refine(const struct plane *plane, const struct layout *layout, struct part part, double stiff, int rounds,
              double least, struct warp *warp);

/* Bends a warp, whose middle and unit are set, in the same way. Returns the share of clear edges that are near where
 * they should be, before the last round. */
double bend(const struct plane *plane, const struct layout *layout, int rounds, struct warp *warp);

/* The mean contrast of a layout's edges, the share of them that are clear, and of these the share that are where they
 * should be: by chance, a third. Those are clear that have this contrast at least, and this share of the mean. */
struct support {
    double mean, clear, near;
};
struct support support_of(const struct plane *plane, const struct layout *layout, const struct warp *warp,
                          double least, double share);

#endif
