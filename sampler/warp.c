#include "warp.h"

enum { PLACES = 7 }; /* each way, that are compared */
static const double STIFF = 1e-9; /* for what a low symbol says nothing of */

static bool invert(const struct homography *of, struct extent extent, struct homography *out) {
    struct point modules[4], pixels[4];
    for (int k = 0; k < 4; k++) {
        modules[k] = corner_of(extent, k);
        pixels[k] = map_point(of, modules[k].x, modules[k].y);
    }
    return through(pixels, modules, out);
}

/* The homography that does at the corners of an extent what the warp does after `inner`. */
static bool through_corners(const struct warp *warp, const struct homography *inner, struct extent extent,
                            struct homography *out) {
    struct point modules[4], pixels[4];
    for (int k = 0; k < 4; k++) {
        modules[k] = corner_of(extent, k);
        struct point place = map_point(inner, modules[k].x, modules[k].y);
        pixels[k] = warp_point(warp, place.x, place.y);
    }
    return through(modules, pixels, out);
}

bool compose_warp(const struct warp *outer, const struct homography *inner, struct extent extent, struct warp *out) {
    double matrices[2][TERMS * TERMS] = {{0}}, terms[TERMS];
    struct homography flat, back;
    if (!through_corners(outer, inner, extent, &flat) || !invert(&flat, extent, &back))
        return false;
    *out = bendable_warp(&flat, extent);
    for (int place = 0; place < PLACES * PLACES; place++) {
        double x = (double)extent.wide * (place % PLACES) / (PLACES - 1),
               y = (double)extent.high * (place / PLACES) / (PLACES - 1);
        struct point there = map_point(inner, x, y), pixel = warp_point(outer, there.x, there.y),
                     wanted = map_point(&back, pixel.x, pixel.y);
        find_terms_at(out, x, y, terms);
        for (int k = 0; k < TERMS; k++) {
            out->right[k] += terms[k] * (wanted.x - x) / out->unit;
            out->down[k] += terms[k] * (wanted.y - y) / out->unit;
            for (int j = 0; j < TERMS; j++)
                matrices[0][k * TERMS + j] = matrices[1][k * TERMS + j] += terms[k] * terms[j];
        }
    }
    for (int k = 0; k < TERMS; k++)
        matrices[0][k * TERMS + k] += STIFF, matrices[1][k * TERMS + k] += STIFF;
    return solve(matrices[0], out->right, TERMS) && solve(matrices[1], out->down, TERMS);
}
