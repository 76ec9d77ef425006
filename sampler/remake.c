#include "remake.h"

#include <stdlib.h>
#include <string.h>

/* ---- As a share of the ground, which is the picture, halved, without gleams, and without what is dark and smaller
 * than a window */

enum { WINDOW = 40, WHITE = 240, LEAST_GROUND = 8, FIXED = 16 }; /* pixels, levels */
enum { LEAST_HALVED = 16, ENDS = 3 }; /* how many more means a row has at its ends than there are */

/* The ground of a picture without gleams thinner than so many pixels, halved if it isn't tiny: how often. */
static bool ground_of(const struct plane *from, int gleam, struct limit *limit, struct plane *out, int *halvings) {
    struct plane half = *from;
    int shorter = from->width < from->height ? from->width : from->height;
    half.owned = NULL, *halvings = shorter >= LEAST_HALVED;
    bool is_made = *halvings == 0 || plane_halve(from, limit, &half);
    int window = WINDOW >> *halvings;
    gleam >>= *halvings, shorter >>= *halvings;
    gleam = gleam < shorter ? gleam : shorter, window = window < shorter ? window : shorter;
    *out = (struct plane){0};
    is_made = is_made && plane_close(&half, gleam, window, limit, out);
    plane_free(&half);
    return is_made;
}

/* Whether one of some pixels differs from another one by more than a small share. In lanes. */
static bool is_apart(const uint8_t *pixels, const uint8_t *others, int count) {
    enum { SHARE = 8 }; /* one of so many parts */
    uint8_t apart = 0;
    for (int k = 0; k < count; k++) {
        uint8_t here = pixels[k], other = others[k], least = here < other ? here : other,
                most = here < other ? other : here;
        apart |= (uint8_t)(most - least) > here / SHARE;
    }
    return apart != 0;
}

/* Whether the ground is nowhere darker or lighter than near by, by more than a small share. */
static bool is_even(const struct plane *ground) {
    enum { NEAR = 8 }; /* pixels of the ground */
    bool is_uneven = false;
    for (int y = 0; y < ground->height && !is_uneven; y++) {
        const uint8_t *row = pixel_of(ground, 0, y),
                      *below = pixel_of(ground, 0, nearest_pixel(y + NEAR, ground->height, 0));
        is_uneven = is_apart(row, row + NEAR, ground->width - NEAR) || is_apart(row, below, ground->width - NEAR);
    }
    return !is_uneven;
}

/* The ground along a row of pixels, and at the ends the nearest: between two rows of it. */
static void ground_along(const struct plane *ground, int y, int halvings, uint16_t *out) {
    int unit = 2 << halvings, at = 2 * y + 1 + unit / 2, lower = at % unit;
    const uint8_t *above = pixel_of(ground, 0, nearest_pixel(at / unit - 1, ground->height, 0)),
                  *below = pixel_of(ground, 0, nearest_pixel(at / unit, ground->height, 0));
    for (int x = 0; x < ground->width; x++)
        out[x + 1] = (uint16_t)(above[x] * (unit - lower) + below[x] * lower);
    out[0] = out[1], out[ground->width + 1] = out[ground->width + 2] = out[ground->width];
}

/* How bright the ground is of each pixel of a row, by that along it, which lies so many halvings apart. `to` has room
 * for one pixel more. In lanes. */
static void spread_ground(const uint16_t *restrict ground, int width, int halvings, uint8_t *restrict to) {
    for (int x = 0; x < width && halvings == 0; x++)
        to[x] = (uint8_t)(ground[x + 1] >> 1);
    for (int x = 0; x < (width + 1) / 2 && halvings > 0; x++) {
        to[2 * x] = (uint8_t)((ground[x] + 3 * ground[x + 1]) >> 4);
        to[2 * x + 1] = (uint8_t)((3 * ground[x + 1] + ground[x + 2]) >> 4);
    }
}

/* A row as a share of its ground. In lanes, so without a table: the quotient, cut to a whole number, is exact, as a
 * float's 24 bits tell it from the next one. */
static void compare_row(const uint8_t *restrict row, const uint8_t *restrict ground, int width, uint8_t *restrict to) {
    for (int x = 0; x < width; x++) {
        int level = ground[x] > LEAST_GROUND ? ground[x] : LEAST_GROUND,
            of_a_level = (int)((float)(WHITE << FIXED) / (float)level);
        uint16_t whole = (uint16_t)(of_a_level >> FIXED), rest = (uint16_t)of_a_level,
                 share = (uint16_t)(row[x] * whole + (uint16_t)((uint32_t)row[x] * rest >> FIXED));
        to[x] = (uint8_t)(share > 255 ? 255 : share);
    }
}

bool plane_compare(const struct plane *from, int gleam, struct limit *limit, struct plane *out, bool *is_even_ground) {
    struct plane ground;
    int halvings, y = 0;
    *out = (struct plane){0};
    if (!ground_of(from, gleam, limit, &ground, &halvings))
        return false;
    *is_even_ground = is_even(&ground);
    uint8_t *to = plane_make(from->width, from->height, 0, out);
    uint16_t *along = malloc(sizeof *along * ((size_t)ground.width + ENDS));
    uint8_t *levels = malloc((size_t)from->width + 1);
    for (; to != NULL && along != NULL && levels != NULL && y < from->height && leaves(limit, y, 3 * from->width);
         y++, to += out->stride) {
        ground_along(&ground, y, halvings, along);
        spread_ground(along, from->width, halvings, levels);
        compare_row(pixel_of(from, 0, y), levels, from->width, to);
    }
    free(levels);
    free(along);
    plane_free(&ground);
    return is_made(to != NULL && y == out->height, out);
}

/* ---- Doubled, by a cubic: each new pixel lies a quarter of an old one from the nearest */

enum { RIM = 2 };

static inline int cubic(int beyond, int here, int next, int after) {
    return -27 * beyond + 225 * here + 67 * next - 9 * after; /* of 256 */
}

static inline uint8_t as_pixel(int value) {
    return (uint8_t)(value < 0 ? 0 : value > 255 ? 255 : value);
}

/* A row between rows, from the four of these from `from` on, the nearest two in the middle, `nearer` the second or the
 * third. `sums` has room for a row and its rim. */
static void double_row(const uint8_t *rows[4], int width, int nearer, int *sums, uint8_t *to) {
    for (int x = 0; x < width; x++)
        sums[x + RIM] = nearer == 1 ? cubic(rows[0][x], rows[1][x], rows[2][x], rows[3][x])
                                    : cubic(rows[3][x], rows[2][x], rows[1][x], rows[0][x]);
    for (int k = 0; k < RIM; k++)
        sums[k] = sums[RIM], sums[RIM + width + k] = sums[RIM + width - 1];
    for (int x = 0; x < width; x++) {
        const int *at = sums + RIM + x;
        to[2 * x] = as_pixel((cubic(at[1], at[0], at[-1], at[-2]) + (1 << 15)) >> 16);
        to[2 * x + 1] = as_pixel((cubic(at[-1], at[0], at[1], at[2]) + (1 << 15)) >> 16);
    }
}

bool plane_double(const struct plane *from, struct limit *limit, struct plane *out) {
    uint8_t *to = plane_make(2 * from->width, 2 * from->height, 0, out);
    int *sums = malloc(sizeof *sums * ((size_t)from->width + 2 * RIM));
    int y = 0;
    for (; to != NULL && sums != NULL && y < out->height && leaves(limit, y, 3 * out->width); y++, to += out->stride) {
        int first = (y + 1) / 2 - 2;
        const uint8_t *rows[4];
        for (int k = 0; k < 4; k++)
            rows[k] = pixel_of(from, 0, nearest_pixel(first + k, from->height, 0));
        double_row(rows, from->width, y % 2 == 0 ? 2 : 1, sums, to);
    }
    free(sums);
    return is_made(to != NULL && y == out->height, out);
}

/* ---- Drawings of dots that are single pixels */

/* The darkest of a pixel, of the one above and of those to the left of both. */
static uint8_t darkest_before(const struct plane *from, int x, int y) {
    uint8_t least = 255;
    for (int row = y > 0 ? y - 1 : 0; row <= y; row++)
        for (int column = x > 0 ? x - 1 : 0; column <= x; column++)
            least = *pixel_of(from, column, row) < least ? *pixel_of(from, column, row) : least;
    return least;
}

bool plane_join_dots(const struct plane *from, struct limit *limit, struct plane *out) {
    uint8_t *to = plane_make(JOINED * from->width, JOINED * from->height, 0, out);
    int y = 0;
    for (; to != NULL && y < out->height && leaves(limit, y, out->width); y++, to += out->stride)
        for (int x = 0; x < from->width; x++)
            memset(to + JOINED * x, darkest_before(from, x, y / JOINED), JOINED);
    return is_made(to != NULL && y == out->height, out);
}
