/* Placements that were tried before, and those that are tried once more later, as smeared. */
#ifndef TRIED_H
#define TRIED_H

#include "plane.h"
#include "warp.h"

struct tried {
    struct extent extent;
    bool is_inverted;
    struct point corners[4]; /* of the picture that is searched */
};

enum { MOST_TRIED = 64, MOST_SMEARED_PLACES = 8 };

struct tried_places {
    struct tried items[MOST_TRIED]; /* the latest ones */
    int count;
};

/* A placement as it is compared, of a picture of which a pixel is `scale` of the one that is searched. */
struct tried tried_at(const struct warp *warp, struct extent extent, double scale, bool is_inverted);

/* Whether this placement, but for a quarter of a module, was tried before. If not, it is from now on. */
bool was_tried(struct tried_places *places, const struct tried *now);

/* A placement that wasn't read, perhaps since light has run from module to module. */
struct smeared {
    struct tried at;
    struct warp warp;
    double score;   /* the larger it is and the more edges support it, the likelier it is a symbol */
    double turning; /* of a square whose side was told by its borders: how evenly these turn; else 0 */
};

struct smeared_places {
    struct smeared items[MOST_SMEARED_PLACES]; /* the likeliest, one at a place */
    int count;
};

/* Keeps a placement, if it is among the likeliest. */
void keep_smeared(struct smeared_places *places, const struct smeared *smeared);

/* Tells the side of a square by how evenly its borders turn, and takes it for one of that. */
void size_up(const struct plane *picture, const struct layouts *shapes, struct smeared *smeared);

/* Puts those first whose borders turn most evenly. */
void sort_smeared(struct smeared_places *places);

#endif
