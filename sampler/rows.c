/* Where symbols stand in rows, as on a sheet or a tray: one that wasn't found is where the others say. */
#include <math.h>

#include "search.h"

enum { NEIGHBOURS = 4, WORK_OF_A_NEIGHBOUR = 10 };
static const double FARTHEST = 4; /* of a symbol's diagonal */

/* The ways from a symbol to those next to it. */
struct beside {
    struct point ways[NEIGHBOURS];
    int count;
};

static bool is_alike(const ecc200_sample *one, const ecc200_sample *other) {
    return one->rows == other->rows && one->columns == other->columns && one->inverted == other->inverted &&
           one->mirrored == other->mirrored;
}

static double diagonal_of(const ecc200_sample *symbol) {
    const ecc200_sample_point *from = &symbol->corners[0], *to = &symbol->corners[2];
    return length(point_at(to->x - from->x, to->y - from->y));
}

/* Keeps a way, if it is one of the shortest. */
static void keep_way(struct beside *beside, struct point way) {
    int at = beside->count;
    while (at > 0 && length(beside->ways[at - 1]) > length(way))
        at--;
    if (at == NEIGHBOURS)
        return;
    beside->count += beside->count < NEIGHBOURS;
    for (int k = beside->count - 1; k > at; k--)
        beside->ways[k] = beside->ways[k - 1];
    beside->ways[at] = way;
}

/* The ways from a symbol to its nearest neighbours of the same kind. */
static struct beside look_beside(const struct search *search, const ecc200_sample *symbol) {
    struct beside beside = {.count = 0};
    double most = FARTHEST * diagonal_of(symbol);
    for (size_t k = 0; k < search->count; k++) {
        const ecc200_sample *other = &search->found[k];
        struct point way = difference(middle_of(other), middle_of(symbol));
        if (other != symbol && is_alike(symbol, other) && fabs(way.x) < most && fabs(way.y) < most)
            keep_way(&beside, way);
    }
    return beside;
}

/* A symbol's own place, moved. False if there is none. */
static bool moved_place(const ecc200_sample *symbol, struct point way, struct placement *out) {
    struct extent upright = {symbol->columns, symbol->rows}, mirrored = {symbol->rows, symbol->columns};
    struct point modules[4], pixels[4];
    struct homography to_picture;
    *out = (struct placement){.extent = symbol->mirrored ? mirrored : upright};
    for (int k = 0; k < 4; k++) {
        modules[k] = corner_of(out->extent, symbol->mirrored && k % 2 == 0 ? 2 - k : k);
        pixels[k] = sum(point_at(symbol->corners[k].x, symbol->corners[k].y), way);
    }
    bool is_there = through(modules, pixels, &to_picture);
    if (is_there)
        out->warp = flat_warp(&to_picture);
    return is_there;
}

/* Judges what stands so far from a symbol as its neighbour does, this way or the other, if nothing is known there. */
static void search_beside(struct search *search, size_t at, struct point way) {
    for (int sign = 1; sign >= -1 && !is_over(search); sign -= 2) {
        const ecc200_sample *symbol = &search->found[at];
        const struct sight *sight = &search->sights[symbol->inverted];
        struct point moved = scale_by(way, sign), middle = sum(middle_of(symbol), moved);
        struct placement placement;
        if (sight->level_count > 0 && shows(&sight->picture, middle) && !is_known_at(&search->known, middle) &&
            moved_place(symbol, moved, &placement))
            judge_all(search, sight, &placement, 1, 1);
    }
}

void search_rows(struct search *search) {
    limit_begin_part(search->judge.limit);
    for (size_t k = 0; k < search->count && !is_over(search); k++) {
        struct beside beside = look_beside(search, &search->found[k]);
        limit_spend(search->judge.limit, WORK_OF_A_NEIGHBOUR * (int64_t)search->count);
        for (int way = 0; way < beside.count; way++)
            search_beside(search, k, beside.ways[way]);
    }
    limit_end_part(search->judge.limit);
}
