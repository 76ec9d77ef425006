/* Pictures of one byte a pixel, and what is computed from them pixel by pixel. */
#ifndef PLANE_H
#define PLANE_H

#include <stddef.h>
#include <stdint.h>

#include "geometry.h"
#include "limit.h"

struct plane {
    int width, height;
    int frame; /* how many pixels all around it may be read as well, 0 or 1: index -1, and the width or height */
    size_t stride;         /* bytes from a row to the next */
    const uint8_t *pixels; /* the first one, within the frame */
    uint8_t *owned;        /* what is freed, if anything */
};

/* Makes room for a plane, and gives its first pixel; NULL if there is no memory. */
uint8_t *plane_make(int width, int height, int frame, struct plane *out);

/* Whether the limit leaves a row of so many pixels; that is looked at now and then. */
bool leaves(struct limit *limit, int row, int width);

/* Takes back a plane if it wasn't made whole. */
bool is_made(bool is_whole, struct plane *plane);

/* Each of these makes a new plane within the limit. False if there was no memory, or the limit was reached, and then
 * there is none. */
bool plane_invert(const struct plane *from, struct limit *limit, struct plane *out);
bool plane_halve(const struct plane *from, struct limit *limit, struct plane *out); /* each pixel is the mean of four */

/* By weights 1 2 1 in both directions. Its frame is as light as the lightest pixel near by, so that what is dark ends
 * with the picture. */
bool plane_smooth(const struct plane *from, struct limit *limit, struct plane *out);

/* The median of each pixel of a plane with a frame, and of the eight around it; framed as the smooth one is. */
bool plane_calm(const struct plane *from, struct limit *limit, struct plane *out);

/* The darkest of each pixel of a plane with a frame, and of the eight around it; framed as the smooth one is. */
bool plane_thicken(const struct plane *from, struct limit *limit, struct plane *out);

/* What is darker than its surroundings on all lines through it, each as long as `reach` pixels to both sides: dots, and
 * neither streaks nor edges. They are dark on white; framed as the smooth one is. */
bool plane_dots(const struct plane *from, int reach, struct limit *limit, struct plane *out);

/* Without what is light and thinner than `least` pixels, and then without what is dark and smaller than `most` each
 * way; neither is larger than the picture. */
bool plane_close(const struct plane *from, int least, int most, struct limit *limit, struct plane *out);

/* How much each four pixels differ along the diagonals between them; kept as the upper left one's. */
bool plane_steepen(const struct plane *from, struct limit *limit, struct plane *out);

/* What a pixel is compared with, by squares of tiles of so many pixels each way, a power of two: the square around its
 * own tile, with so many to each side; nothing is dark where it shows less contrast than so many levels of 255, or, if
 * that isn't 0, more than so many. */
struct surroundings {
    int tile, around, least_contrast, most_contrast;
};

/* 1 where a pixel is darker than its surroundings, else 0, and in the frame. */
bool plane_darken(const struct plane *from, struct surroundings by, struct limit *limit, struct plane *out);

void plane_free(struct plane *plane);

/* The pixel of a row or column that a coordinate lies in; outside, the nearest one of `count` and those of the frame.
 * The coordinate may be any number, as far away as a projection takes it. */
static inline int nearest_pixel(double at, int count, int frame) {
    return !(at > -frame) ? -frame : at < count + frame ? (int)(at + frame) - frame : count + frame - 1;
}

/* A pixel, of the frame or within it. */
static inline const uint8_t *pixel_of(const struct plane *plane, int column, int row) {
    return plane->pixels + (ptrdiff_t)row * (ptrdiff_t)plane->stride + column;
}

/* The same of a plane that is owned. */
static inline uint8_t *own_pixel_of(struct plane *plane, int column, int row) {
    return plane->owned + (pixel_of(plane, column, row) - plane->owned);
}

/* Whether the plane shows a point. */
static inline bool shows(const struct plane *plane, struct point at) {
    return at.x >= 0 && at.y >= 0 && at.x < plane->width && at.y < plane->height;
}

/* 1 if the plane, one of 0 and 1, shows the point and it is dark. */
static inline int dark_at(const struct plane *dark, struct point at) {
    return shows(dark, at) ? *pixel_of(dark, (int)at.x, (int)at.y) : 0;
}

/* The brightness of the pixel that a point lies in; outside, that of the nearest pixel. */
static inline int grey_at(const struct plane *grey, struct point at) {
    return *pixel_of(grey, nearest_pixel(at.x, grey->width, grey->frame),
                     nearest_pixel(at.y, grey->height, grey->frame));
}

/* Whether a point has the centre of a pixel on each side. */
static inline bool is_between_pixels(const struct plane *plane, struct point at) {
    return at.x >= 0.5 && at.y >= 0.5 && at.x < plane->width - 0.5 && at.y < plane->height - 0.5;
}

/* The brightness at a point, between the centres of pixels by their distances; outside, that of the nearest pixel. */
static inline double brightness(const struct plane *plane, struct point at) {
    double least = -plane->frame, x = at.x - 0.5, y = at.y - 0.5, most_x = plane->width - 1 - least,
           most_y = plane->height - 1 - least;
    x = !(x > least) ? least : x > most_x ? most_x : x;
    y = !(y > least) ? least : y > most_y ? most_y : y;
    int column = (int)(x - least) - plane->frame, row = (int)(y - least) - plane->frame;
    const uint8_t *here = pixel_of(plane, column, row);
    double right = x - column, down = y - row;
    int next = column < most_x ? 1 : 0;
    const uint8_t *below = row < most_y ? here + plane->stride : here;
    double upper = here[0] + right * (here[next] - here[0]), lower = below[0] + right * (below[next] - below[0]);
    return upper + down * (lower - upper);
}

#endif
