/* How a symbol lies in a picture: in perspective, and bent as a surface may be. */
#ifndef WARP_H
#define WARP_H

#include "geometry.h"
#include "layout.h"

enum { TERMS = 10 }; /* of a polynomial of the third degree in two variables */

/* Moves a module by two polynomials of its place, and then projects it into the picture. */
struct warp {
    struct homography to_picture;
    bool is_bent;        /* whether there are polynomials */
    struct point middle; /* modules: what is a place of 0 each way */
    double unit;         /* modules: how far it is to 1 */
    double right[TERMS], down[TERMS];
};

static inline void find_terms(double x, double y, double terms[TERMS]) {
    double of[TERMS] = {1, x, y, x * x, x * y, y * y, x * x * x, x * x * y, x * y * y, y * y * y};
    for (int k = 0; k < TERMS; k++)
        terms[k] = of[k];
}

/* The terms at the place of a module. */
static inline void find_terms_at(const struct warp *warp, double x, double y, double terms[TERMS]) {
    find_terms((x - warp->middle.x) / warp->unit, (y - warp->middle.y) / warp->unit, terms);
}

static inline struct point warp_point(const struct warp *warp, double x, double y) {
    if (!warp->is_bent)
        return map_point(&warp->to_picture, x, y);
    double terms[TERMS], right = 0, down = 0;
    find_terms_at(warp, x, y, terms);
    for (int k = 0; k < TERMS; k++)
        right += warp->right[k] * terms[k], down += warp->down[k] * terms[k];
    return map_point(&warp->to_picture, x + warp->unit * right, y + warp->unit * down);
}

static inline struct warp flat_warp(const struct homography *to_picture) {
    return (struct warp){.to_picture = *to_picture};
}

/* A warp of modules of this extent that isn't bent yet. */
static inline struct warp bendable_warp(const struct homography *to_picture, struct extent extent) {
    return (struct warp){*to_picture, true, {extent.wide / 2.0, extent.high / 2.0}, longer_side(extent), {0}, {0}};
}

/* Where a corner of modules of this extent lies among them: the upper left one, and then clockwise. */
static inline struct point corner_of(struct extent extent, int corner) {
    return point_at(corner == 1 || corner == 2 ? extent.wide : 0, corner > 1 ? extent.high : 0);
}

/* The warp of modules of this extent that does about what `outer` does after `inner`, a map from modules to modules.
 * False if there is none. */
bool compose_warp(const struct warp *outer, const struct homography *inner, struct extent extent, struct warp *out);

#endif
