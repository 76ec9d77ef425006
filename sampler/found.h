/* Where the symbols lie that have been found. */
#ifndef FOUND_H
#define FOUND_H

#include <stdbool.h>
#include <stddef.h>
#include <stdint.h>

#include "ecc200_sample.h"
#include "geometry.h"

/* Whether a point lies within corners, which go around it one way or the other. */
bool lies_within(const ecc200_sample_point corners[4], struct point at);

/* The corners of a symbol, moved away from its middle, so that a square is larger by so many pixels on each side. */
void grow_corners(const ecc200_sample *symbol, double by, ecc200_sample_point out[4]);

/* Whether a point of the picture lies in a symbol. */
bool shows_at(const ecc200_sample *symbol, struct point at);

/* A map of a picture that shows which parts of it are symbols that have been found, by cells of some pixels. */
struct known {
    uint8_t *cells;
    int across, down;
    bool is_empty;
};

/* A map on which there is nothing yet. False if there is no memory. */
bool known_make(int width, int height, struct known *out);
void known_free(struct known *known);

void add_known(struct known *known, const ecc200_sample *symbol);

/* Whether a point of the picture lies in a known symbol, but for some pixels. */
bool is_known_at(const struct known *known, struct point at);

/* Whether two borders that go from a corner to `top` and to `right` embrace a part of a known symbol: then no other
 * symbol is there. They are of a level of which each pixel is `scale` pixels of the picture. */
bool embrace_known(const struct known *known, double scale, struct point corner, struct point top, struct point right);

/* The mean of a symbol's corners. */
struct point middle_of(const ecc200_sample *symbol);

#endif
