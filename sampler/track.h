/* From the solid borders to the whole symbol: the alternating borders opposite them, and with these the size and the
 * fourth corner. */
#ifndef TRACK_H
#define TRACK_H

#include "finder.h"
#include "layout.h"
#include "warp.h"

/* A picture in grey, and where it is dark. */
struct scene {
    const struct plane *grey, *dark;
    struct limit *limit;                  /* when to stop looking */
};

/* Where a symbol may be. */
struct placement {
    struct warp warp; /* from modules to pixels */
    struct extent extent; /* modules */
    double score;                 /* the share of border modules that have the right colour */
    bool shows_border;            /* whether nearly all have, though edges may be missing where something touches it */
};

enum { MOST_PLACEMENTS = 4 };

/* The placements of an elbow, the likeliest first; returns their number. */
int placements_of(const struct scene *scene, const struct layouts *shapes, const struct elbow *elbow,
                  struct placement out[MOST_PLACEMENTS]);

/* The likeliest placement that the solid borders alone tell, as they do in a picture without perspective. False if its
 * alternating borders don't show clearly. */
bool even_placement_of(const struct scene *scene, const struct layouts *shapes, const struct elbow *elbow,
                       struct placement *out);

#endif
