#include "tried.h"

#include <math.h>

#include "turns.h"

static const double NEAR_PLACE = 0.01; /* of a symbol's diagonal, by which corners at one place differ at most */

struct tried tried_at(const struct warp *warp, struct extent extent, double scale, bool is_inverted) {
    struct tried now = {.extent = extent, .is_inverted = is_inverted};
    for (int k = 0; k < 4; k++)
        now.corners[k] = scale_by(warp_point(warp, corner_of(extent, k).x, corner_of(extent, k).y), scale);
    return now;
}

/* Whether two placements are the same, but for a quarter of a module. */
static bool is_same(const struct tried *one, const struct tried *other) {
    double near = 0.25 * length(difference(one->corners[2], one->corners[0])) / mean_side(one->extent);
    bool is_same = other->extent.wide == one->extent.wide && other->extent.high == one->extent.high &&
                   other->is_inverted == one->is_inverted;
    for (int corner = 0; corner < 4 && is_same; corner++)
        is_same = length(difference(other->corners[corner], one->corners[corner])) < near;
    return is_same;
}

bool was_tried(struct tried_places *places, const struct tried *now) {
    for (int k = 0; k < places->count && k < MOST_TRIED; k++)
        if (is_same(now, &places->items[k]))
            return true;
    places->items[places->count++ % MOST_TRIED] = *now;
    return false;
}

/* ---- Smeared ones */

/* Whether two placements have about the same corners, whatever their sizes. */
static bool is_same_place(const struct tried *one, const struct tried *other) {
    double near = NEAR_PLACE * length(difference(one->corners[2], one->corners[0]));
    bool is_same = one->is_inverted == other->is_inverted && is_square(one->extent) == is_square(other->extent);
    for (int corner = 0; corner < 4 && is_same; corner++)
        is_same = length(difference(other->corners[corner], one->corners[corner])) < near;
    return is_same;
}

/* Drops the smeared placements at the place of another. False if one of them is as likely. */
static bool gives_way(struct smeared_places *places, const struct smeared *smeared) {
    int kept = 0;
    for (int k = 0; k < places->count; k++) {
        bool is_there = is_same_place(&smeared->at, &places->items[k].at);
        if (is_there && places->items[k].score >= smeared->score)
            return false;
        if (!is_there)
            places->items[kept++] = places->items[k];
    }
    places->count = kept;
    return true;
}

void keep_smeared(struct smeared_places *places, const struct smeared *smeared) {
    if (!gives_way(places, smeared))
        return;
    int at = places->count;
    while (at > 0 && places->items[at - 1].score < smeared->score)
        at--;
    if (at == MOST_SMEARED_PLACES)
        return;
    places->count += places->count < MOST_SMEARED_PLACES;
    for (int k = places->count - 1; k > at; k--)
        places->items[k] = places->items[k - 1];
    places->items[at] = *smeared;
}

/* Takes a square for one of another side. */
static void take_side(struct smeared *smeared, int side) {
    double scale = (double)smeared->at.extent.wide / side;
    struct homography inner = {{{scale, 0, 0}, {0, scale, 0}, {0, 0, 1}}};
    smeared->warp.to_picture = compose(&smeared->warp.to_picture, &inner);
    smeared->at.extent = (struct extent){side, side};
}

void size_up(const struct plane *picture, const struct layouts *shapes, struct smeared *smeared) {
    double strength;
    int side = side_by_turns(picture, &smeared->warp, smeared->at.extent.wide, shapes, &strength);
    if (side > 0)
        take_side(smeared, side);
    /* By chance so many modules turn as strongly the less, the more there are. */
    smeared->turning = strength * sqrt(smeared->at.extent.wide);
}

void sort_smeared(struct smeared_places *places) {
    for (int k = 1; k < places->count; k++) {
        struct smeared now = places->items[k];
        int at = k;
        for (; at > 0 && places->items[at - 1].turning < now.turning; at--)
            places->items[at] = places->items[at - 1];
        places->items[at] = now;
    }
}
