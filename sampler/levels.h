/* Levels of brightness between the centres of pixels, in whole numbers, along lines. */
#ifndef LEVELS_H
#define LEVELS_H

#include "plane.h"

/* Pixels, and levels of brightness: so many are one. */
enum { HALF_OF_BITS = 8, ONE_LEVEL = 1 << 2 * HALF_OF_BITS };

static inline int in_fractions(double at) {
    return (int)(at * ONE_LEVEL);
}

/* A place, or the way from one to the next; 0 is the centre of the first pixel. */
struct fractions {
    int x, y;
};

static inline struct fractions place_in_fractions(struct point at) {
    return (struct fractions){in_fractions(at.x - 0.5), in_fractions(at.y - 0.5)};
}

static inline struct fractions way_in_fractions(struct point way) {
    return (struct fractions){in_fractions(way.x), in_fractions(way.y)};
}

/* Places on lines: of each the pixel to the upper left, counted from the first one, and how far it is beyond that. */
enum { MOST_PLACES = 80, AT_A_TIME = 8 };
struct places {
    int count;
    uint32_t pixels[MOST_PLACES];
    uint16_t right[MOST_PLACES], down[MOST_PLACES];
};

/* Adds so many places, each a step behind the one before, between pixels of a plane that plane_make made. All lines
 * together, the last one made up to a multiple of AT_A_TIME, have room. */
void add_line(struct places *places, const struct plane *plane, struct fractions from, struct fractions step,
              int count);

/* Finds the levels at all places. */
void find_levels(const struct plane *plane, struct places *places, int levels[MOST_PLACES]);

#endif
