#include "levels.h"

enum { FRACTION = (1 << HALF_OF_BITS) - 1, WHOLE = 1 << HALF_OF_BITS };

/* A multiple of AT_A_TIME are written: those too many, which may lie anywhere, give way to the next line. */
void add_line(struct places *places, const struct plane *plane, struct fractions from, struct fractions step,
              int count) {
    uint32_t x = (uint32_t)from.x, y = (uint32_t)from.y, right = (uint32_t)step.x, down = (uint32_t)step.y,
             stride = (uint32_t)plane->stride;
    int end = places->count + (count + AT_A_TIME - 1) / AT_A_TIME * AT_A_TIME;
    for (int k = places->count; k < end; k++, x += right, y += down) {
        places->pixels[k] = (y >> 2 * HALF_OF_BITS) * stride + (x >> 2 * HALF_OF_BITS);
        places->right[k] = (uint16_t)(x >> HALF_OF_BITS & FRACTION);
        places->down[k] = (uint16_t)(y >> HALF_OF_BITS & FRACTION);
    }
    places->count += count;
}

/* Two pixels beside one another. */
static inline uint16_t pair_at(const uint8_t *pixel) {
    return (uint16_t)(pixel[0] | pixel[1] << 8);
}

/* The level so far to the right between two pixels. */
static inline uint16_t between(uint16_t pair, uint16_t right) {
    return (uint16_t)((pair & 255) * (WHOLE - right) + (pair >> 8) * right);
}

void find_levels(const struct plane *plane, struct places *places, int levels[MOST_PLACES]) {
    uint16_t above[MOST_PLACES], below[MOST_PLACES];
    const uint8_t *upper = plane->pixels, *lower = upper + plane->stride;
    int end = (places->count + AT_A_TIME - 1) / AT_A_TIME * AT_A_TIME;
    for (int k = places->count; k < end; k++)
        places->pixels[k] = 0;
    for (int first = 0; first < end; first += AT_A_TIME)
        for (int k = first; k < first + AT_A_TIME; k++) {
            size_t pixel = places->pixels[k];
            above[k] = pair_at(upper + pixel), below[k] = pair_at(lower + pixel);
        }
    for (int k = 0; k < end; k++) {
        uint16_t down = places->down[k], up = (uint16_t)(WHOLE - down);
        levels[k] = (int)((uint32_t)between(above[k], places->right[k]) * up +
                          (uint32_t)between(below[k], places->right[k]) * down);
    }
}
