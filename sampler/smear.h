/* Modules whose light has run over those around them, as where a camera moved while it took the picture: how it has run
 * is learned from what the picture shows, and undone. */
#ifndef SMEAR_H
#define SMEAR_H

#include "layout.h"
#include "plane.h"
#include "warp.h"

enum {
    SMEAR_REACH = 2,      /* modules each way that light runs */
    SMEAR_RING = 3,       /* modules around a symbol that are looked at with it: they are light */
    SMEAR_PLACES = 2,     /* of each module that are looked at */
    SMEAR_WINDOW = 2 * SMEAR_REACH + 1,
    SMEAR_TERMS = SMEAR_WINDOW * SMEAR_WINDOW + 3, /* with a level of brightness that changes evenly */
    MOST_SMEARED = (MOST_SIDE + 2 * SMEAR_RING) * (MOST_SIDE + 2 * SMEAR_RING)
};

struct smear {
    struct extent extent;                       /* with the ring */
    float seen[SMEAR_PLACES][MOST_SMEARED];     /* brightness, row by row */
    float left[SMEAR_PLACES][MOST_SMEARED];     /* what of it the modules don't explain */
    float dark[MOST_SMEARED];                   /* how dark each module is taken to be, from 0 to 1 */
    uint8_t is_settled[MOST_SMEARED];           /* whether that stays as it is */
    double spread[SMEAR_PLACES][SMEAR_TERMS];   /* how dark a module makes each of those around it, row by row */
};

/* How much work that is for a symbol of this extent. */
int64_t work_of_smear(struct extent extent);

/* Tells the modules of a symbol apart: `modules` has a first guess, 1 for each dark one, and then what comes of it. How
 * light runs is learned with the border as it should be; what the border shows comes out all the same. False if it
 * can't be learned. */
bool undo_smear(const struct plane *picture, const struct layout *layout, const struct warp *warp, struct smear *room,
                uint8_t *modules);

#endif
