/* Which modules a picture tells nothing of, as the place itself shows: those outside of it, in a glare, beyond a torn
 * edge, or under a blot. */
#ifndef DOUBT_H
#define DOUBT_H

#include "layout.h"
#include "plane.h"
#include "warp.h"

/* What is looked at to find them: modules of a symbol and of its surroundings. */
enum { RING = 2, MOST_LOOKED_AT = (MOST_SIDE + 2 * RING) * (MOST_SIDE + 2 * RING) };
struct looks {
    struct extent extent;                  /* with the ring of modules around the symbol */
    float mean[MOST_LOOKED_AT];            /* brightness */
    uint8_t least[MOST_LOOKED_AT];         /* the darkest of a module's points */
    uint8_t is_outside[MOST_LOOKED_AT];    /* whether a module isn't shown whole */
    uint8_t is_flat[MOST_LOOKED_AT];       /* whether the three by three modules around one look all alike */
    uint8_t is_in_area[MOST_LOOKED_AT];    /* what a flat area has, while it is looked at */
    int pending[MOST_LOOKED_AT];
};

/* Looks at the modules of a symbol and around it. `is_inverted`: whether it is light on dark in the picture. */
void look_at_modules(const struct plane *picture, bool is_inverted, const struct layout *layout,
                     const struct warp *warp, struct looks *out);

/* Writes 1 for each module of a symbol that is doubtful, row by row, and returns how many are 1 then. `beside`: 1 if
 * the modules beside a damaged place, which its edge may cut, are doubtful too, else 0. */
int find_doubt(struct looks *looks, const struct layout *layout, int beside, uint8_t *doubtful);

#endif
