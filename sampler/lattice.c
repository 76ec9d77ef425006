#include "lattice.h"

enum { FIRST_REACH = 4, LEAST_STEP = 2, STEPS = 16, SIDES_OF_A_PART = 4 };
static const double LEAST_CLEAR = 0.12; /* of the places between modules, of which about half have an edge */
static const double LEAST_NEAR = 0.55;  /* of the clear edges */
/* Of those of its first modules: of the lattice that two waves give, which isn't fitted to edges yet, and then. */
static const double LEAST_UNFITTED = 0.35, LEAST_FIRST = 0.6;
static const double LEAST_SHARE = 0.35; /* of the mean contrast, for an edge to be clear */
static const double STIFF = 0.1, UNIT = 32;

/* How much the brightness differs from module to module around the origin, at points so far from their corners. */
static double variance_at(const struct plane *grey, const struct homography *to_picture, double beside) {
    double count = 0, total = 0, squares = 0;
    for (int y = -FIRST_REACH; y < FIRST_REACH; y++)
        for (int x = -FIRST_REACH; x < FIRST_REACH; x++) {
            double here = brightness(grey, map_point(to_picture, x + beside, y + beside));
            count++, total += here, squares += here * here;
        }
    return squares / count - total / count * total / count;
}

/* The edges of small dots are nearer to the dots' middles than to the corners of modules: there the lattice is half a
 * module beside. */
static struct warp settled(const struct plane *grey, const struct homography *to_picture) {
    static const struct homography half = {{{1, 0, 0.5}, {0, 1, 0.5}, {0, 0, 1}}};
    bool is_beside = variance_at(grey, to_picture, 0) > variance_at(grey, to_picture, 0.5);
    return (struct warp){.to_picture = is_beside ? compose(to_picture, &half) : *to_picture, .unit = UNIT};
}

/* Whether a module of a part lies in a known symbol. */
static bool is_taken(const struct ground *ground, const struct warp *warp, struct part part) {
    for (int y = part.first_y; y < part.last_y && !ground->known->is_empty; y++)
        for (int x = part.first_x; x < part.last_x; x++)
            if (is_known_at(ground->known, scale_by(warp_point(warp, x + 0.5, y + 0.5), ground->scale)))
                return true;
    return false;
}

/* How edges lie on a lattice, in a part of it, of those of this contrast and share of the mean at least; none, if there
 * are too few, or the part is somebody else's. */
static struct support support_in(const struct ground *ground, struct layout *room, const struct lattice *lattice,
                                 struct part part, double least, double share) {
    struct support support = {0};
    if (is_taken(ground, &lattice->warp, part))
        return support;
    lay_out_places(room, part);
    support = support_of(ground->grey, room, &lattice->warp, least, share);
    return support.clear >= LEAST_CLEAR ? support : (struct support){0};
}

/* How many modules a part grows by: few, or one of so many of it, which saves many small steps of a large one. */
static int step_of(struct part part) {
    int wide = part.last_x - part.first_x, high = part.last_y - part.first_y, shorter = wide < high ? wide : high;
    return shorter / STEPS > LEAST_STEP ? shorter / STEPS : LEAST_STEP;
}

/* The strip of modules just outside one side of a part. */
static struct part strip_beside(struct part part, int side) {
    int step = step_of(part);
    switch (side) {
    case 0: return (struct part){part.first_x - step, part.first_x, part.first_y, part.last_y};
    case 1: return (struct part){part.last_x, part.last_x + step, part.first_y, part.last_y};
    case 2: return (struct part){part.first_x, part.last_x, part.first_y - step, part.first_y};
    default: return (struct part){part.first_x, part.last_x, part.last_y, part.last_y + step};
    }
}

static struct part both_of(struct part one, struct part other) {
    return (struct part){one.first_x < other.first_x ? one.first_x : other.first_x,
                         one.last_x > other.last_x ? one.last_x : other.last_x,
                         one.first_y < other.first_y ? one.first_y : other.first_y,
                         one.last_y > other.last_y ? one.last_y : other.last_y};
}

/* Grows the lattice to those sides that fit; false if none does. One that doesn't may later, by what has grown beside.
 */
static bool grow(const struct ground *ground, struct layout *room, struct lattice *lattice) {
    struct part before = lattice->part;
    bool grows = false;
    double least = LEAST_SHARE * lattice->first.mean;
    for (int side = 0; side < SIDES_OF_A_PART; side++) {
        struct part strip = strip_beside(before, side);
        if (support_in(ground, room, lattice, strip, least, 0).near >= LEAST_NEAR)
            grows = true, lattice->part = both_of(lattice->part, strip);
    }
    return grows;
}

static bool has_room(struct part part) {
    int both = 2 * step_of(part);
    return part.last_x - part.first_x + both <= MOST_EXTENT && part.last_y - part.first_y + both <= MOST_EXTENT;
}

bool begin_lattice(const struct ground *ground, const struct homography *to_picture, struct layout *room,
                   struct lattice *out) {
    const struct plane *grey = ground->grey;
    out->warp = settled(grey, to_picture);
    out->part = (struct part){-FIRST_REACH, FIRST_REACH, -FIRST_REACH, FIRST_REACH};
    out->first = support_in(ground, room, out, out->part, 0, LEAST_SHARE);
    if (out->first.near >= LEAST_UNFITTED) {
        refine(grey, room, out->part, STIFF, 3, 0, &out->warp);
        out->first = support_in(ground, room, out, out->part, 0, LEAST_SHARE);
    }
    return out->first.near >= LEAST_FIRST;
}

void grow_lattice(const struct ground *ground, struct layout *room, struct limit *limit, struct lattice *lattice) {
    lattice->warp.is_bent = true;
    while (!limit_reached(limit) && has_room(lattice->part) && grow(ground, room, lattice)) {
        lay_out_places(room, lattice->part);
        limit_spend(limit, 2 * work_of_fitting(room)); /* the strips beside, and the bend */
        bend(ground->grey, room, 1, &lattice->warp);
    }
}
