#include "found.h"

#include <math.h>
#include <stdlib.h>

#include "plane.h"

bool lies_within(const ecc200_sample_point corners[4], struct point at) {
    int left = 0;
    for (int k = 0; k < 4; k++) {
        const ecc200_sample_point *from = &corners[k], *to = &corners[(k + 1) % 4];
        left += (to->x - from->x) * (at.y - from->y) - (to->y - from->y) * (at.x - from->x) > 0;
    }
    return left == 0 || left == 4;
}

bool shows_at(const ecc200_sample *symbol, struct point at) {
    return lies_within(symbol->corners, at);
}

void grow_corners(const ecc200_sample *symbol, double by, ecc200_sample_point out[4]) {
    struct point middle = middle_of(symbol);
    for (int k = 0; k < 4; k++) {
        struct point corner = point_at(symbol->corners[k].x, symbol->corners[k].y), away = difference(corner, middle),
                     at = sum(corner, scale_by(away, sqrt(2) * by / fmax(length(away), 1)));
        out[k] = (ecc200_sample_point){at.x, at.y};
    }
}

enum { CELL = 4 }; /* pixels */

static int cells_in(int pixels) {
    return pixels / CELL + 1;
}

bool known_make(int width, int height, struct known *out) {
    *out = (struct known){.across = cells_in(width), .down = cells_in(height), .is_empty = true};
    out->cells = calloc((size_t)out->across, (size_t)out->down);
    return out->cells != NULL;
}

void known_free(struct known *known) {
    free(known->cells);
}

static uint8_t *cell_at(const struct known *known, int x, int y) {
    return known->cells + (size_t)y * (size_t)known->across + (size_t)x;
}

void add_known(struct known *known, const ecc200_sample *symbol) {
    double least_x = known->across, least_y = known->down, most_x = 0, most_y = 0;
    for (int k = 0; k < 4; k++) {
        double x = symbol->corners[k].x / CELL, y = symbol->corners[k].y / CELL;
        least_x = fmin(least_x, x), least_y = fmin(least_y, y), most_x = fmax(most_x, x), most_y = fmax(most_y, y);
    }
    for (int y = nearest_pixel(least_y, known->down, 0); y <= nearest_pixel(most_y, known->down, 0); y++)
        for (int x = nearest_pixel(least_x, known->across, 0); x <= nearest_pixel(most_x, known->across, 0); x++)
            *cell_at(known, x, y) |= shows_at(symbol, point_at((x + 0.5) * CELL, (y + 0.5) * CELL));
    known->is_empty = false;
}

bool is_known_at(const struct known *known, struct point at) {
    bool is_inside = at.x >= 0 && at.y >= 0 && at.x < known->across * CELL && at.y < known->down * CELL;
    return is_inside && *cell_at(known, (int)(at.x / CELL), (int)(at.y / CELL)) != 0;
}

bool embrace_known(const struct known *known, double scale, struct point corner, struct point top,
                   struct point right) {
    /* Shares of the borders, uneven, so that they don't all lie between the symbols of a sheet. The corner opposite
     * isn't known. */
    static const double places[] = {0.08, 0.19, 0.27, 0.41, 0.5, 0.63, 0.72, 0.87};
    enum { PLACES = sizeof places / sizeof *places };
    struct point along = scale_by(difference(right, corner), scale),
                 up = scale_by(difference(top, corner), scale), from = scale_by(corner, scale);
    for (int row = 0; row < PLACES && !known->is_empty; row++)
        for (int column = 0; column < PLACES && row + column <= PLACES; column++) {
            struct point at = sum(scale_by(along, places[column]), scale_by(up, places[row]));
            if (is_known_at(known, sum(from, at)))
                return true;
        }
    return false;
}

struct point middle_of(const ecc200_sample *symbol) {
    struct point total = point_at(0, 0);
    for (int k = 0; k < 4; k++)
        total = sum(total, point_at(symbol->corners[k].x, symbol->corners[k].y));
    return scale_by(total, 0.25);
}
