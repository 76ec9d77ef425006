#include "order.h"

#include <math.h>
#include <stdlib.h>

static const double LEAST_ALIKE = 0.9;  /* of the mean of directions, of length 1 each, for them to be one */
static const double MOST_LOWER = 0.5;   /* how much lower than the first of a row, in its heights, another of it lies */

enum { LEAST_LATTICE = 4 }; /* symbols that show how they lie beside one another */

/* Where a symbol lies, and how high it is. */
struct entry {
    struct point at;
    double height;
    size_t symbol;
};

static struct point corner_at(const ecc200_sample *symbol, int k) {
    return point_at(symbol->corners[k].x, symbol->corners[k].y);
}

/* The sum of directions, each as four times its angle, which is the same for all quarter turns. */
static void add_direction(struct point *total, struct point along) {
    *total = sum(*total, turn_by(point_at(1, 0), 4 * atan2(along.y, along.x)));
}

/* Whether so many directions are one. */
static bool are_alike(struct point total, size_t count) {
    return length(total) >= LEAST_ALIKE * (double)count;
}

/* The way from a symbol to the one that is nearest. */
static struct point way_to_nearest(const ecc200_sample *symbols, size_t count, size_t at) {
    struct point middle = middle_of(&symbols[at]), nearest = point_at(INFINITY, INFINITY);
    for (size_t k = 0; k < count; k++) {
        struct point way = difference(middle_of(&symbols[k]), middle);
        if (k != at && dot(way, way) < dot(nearest, nearest))
            nearest = way;
    }
    return nearest;
}

/* By how much all symbols are turned, from -45 to 45 degrees, in radians: as their neighbours lie, or else as each of
 * them lies; 0 if these aren't turned alike. */
static double turn_of(const ecc200_sample *symbols, size_t count) {
    struct point lattice = point_at(0, 0), single = point_at(0, 0);
    for (size_t k = 0; k < count; k++) {
        if (count >= LEAST_LATTICE)
            add_direction(&lattice, way_to_nearest(symbols, count, k));
        add_direction(&single, difference(corner_at(&symbols[k], 2), corner_at(&symbols[k], 3)));
    }
    struct point total = count >= LEAST_LATTICE && are_alike(lattice, count) ? lattice : single;
    return are_alike(total, count) ? atan2(total.y, total.x) / 4 : 0;
}

static int by_height(const void *one, const void *other) {
    const struct entry *a = one, *b = other;
    return by_place(a->at, b->at);
}

static int by_column(const void *one, const void *other) {
    const struct entry *a = one, *b = other;
    return a->at.x < b->at.x ? -1 : a->at.x > b->at.x ? 1 : by_place(a->at, b->at);
}

/* Sorts entries row by row. */
static void sort_entries(struct entry *entries, size_t count) {
    qsort(entries, count, sizeof *entries, by_height);
    for (size_t first = 0, last = 0; first < count; first = last) {
        double most = entries[first].at.y + MOST_LOWER * entries[first].height;
        while (last < count && entries[last].at.y <= most)
            last++;
        qsort(entries + first, last - first, sizeof *entries, by_column);
    }
}

/* Moves the symbols to where the entries have them. */
static void move_symbols(ecc200_sample *symbols, struct entry *entries, size_t count, ecc200_sample *room) {
    for (size_t k = 0; k < count; k++) {
        if (entries[k].symbol == k)
            continue;
        size_t at = k;
        *room = symbols[k];
        while (entries[at].symbol != k) {
            size_t from = entries[at].symbol;
            symbols[at] = symbols[from];
            entries[at].symbol = at, at = from;
        }
        symbols[at] = *room;
        entries[at].symbol = at;
    }
}

bool put_in_order(ecc200_sample *symbols, size_t count, ecc200_sample *room) {
    struct entry *entries = malloc((count + 1) * sizeof *entries);
    double turn = turn_of(symbols, count);
    if (entries == NULL)
        return false;
    for (size_t k = 0; k < count; k++) {
        double wide = length(difference(corner_at(&symbols[k], 2), corner_at(&symbols[k], 3))),
               high = length(difference(corner_at(&symbols[k], 0), corner_at(&symbols[k], 3)));
        entries[k] = (struct entry){turn_by(middle_of(&symbols[k]), -turn), fmin(wide, high), k};
    }
    sort_entries(entries, count);
    move_symbols(symbols, entries, count, room);
    free(entries);
    return true;
}
