/* A lattice of modules that grows from a small part of a picture over all that fits it. */
#ifndef LATTICE_H
#define LATTICE_H

#include "found.h"
#include "layout.h"
#include "plane.h"
#include "warp.h"
#include "witness.h"

enum { MOST_EXTENT = MOST_SIDE + 16 }; /* modules each way */

struct lattice {
    struct warp warp;     /* from modules to pixels */
    struct part part;     /* the modules that it has */
    struct support first; /* of its first modules */
};

/* Where lattices grow: a level, and what is known of the picture, `scale` pixels of which are one of the level. */
struct ground {
    const struct plane *grey;
    const struct known *known;
    double scale;
};

/* Fits the first modules of a lattice, around the origin of the map. `room` is for its places. False if they don't fit,
 * which `out` tells then. */
bool begin_lattice(const struct ground *ground, const struct homography *to_picture, struct layout *room,
                   struct lattice *out);

/* Grows a lattice as far as edges lie on it and no known symbol does, or until the limit. */
void grow_lattice(const struct ground *ground, struct layout *room, struct limit *limit, struct lattice *lattice);

#endif
