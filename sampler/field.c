#include "field.h"

#include <math.h>

enum { MARGIN = 4, AROUND = 3, POINTS = 3 };
static const double APART = 0.2; /* modules: how far the points of a module are from one another */

static float brightness_of(const struct plane *grey, const struct warp *warp, int x, int y) {
    double total = 0;
    for (int k = 0; k < POINTS * POINTS; k++) {
        double right = x + 0.5 + APART * (k % POINTS - 1), down = y + 0.5 + APART * (k / POINTS - 1);
        total += brightness(grey, warp_point(warp, right, down));
    }
    return (float)(total / (POINTS * POINTS));
}

/* The first of at most `most` modules that has those from `first` to `last` in the middle. */
static int begin(int first, int last, int *count) {
    *count = last - first + 2 * MARGIN < MOST_FIELD ? last - first + 2 * MARGIN : MOST_FIELD;
    return (first + last - *count) / 2;
}

/* The least and the most of numbers. */
struct range {
    float least[MOST_FIELD + 2 * AROUND], most[MOST_FIELD + 2 * AROUND];
};

static void begin_range(struct range *range) {
    for (int x = 0; x < MOST_FIELD + 2 * AROUND; x++)
        range->least[x] = INFINITY, range->most[x] = -1;
}

/* Widens ranges, those of a row or of places beside it, but for numbers below 0. In lanes. */
static void widen(const float *restrict least, const float *restrict most, int wide, float *restrict to_least,
                  float *restrict to_most) {
    for (int x = 0; x < wide; x++) {
        float lower = least[x] < 0 ? INFINITY : least[x];
        to_least[x] = lower < to_least[x] ? lower : to_least[x];
        to_most[x] = most[x] > to_most[x] ? most[x] : to_most[x];
    }
}

/* The ranges of the squares around the numbers of a row. */
static void find_ranges(const float *of, int wide, int high, int y, struct range *out) {
    struct range rows;
    int first = y > AROUND ? y - AROUND : 0, last = y + AROUND < high ? y + AROUND : high - 1;
    begin_range(&rows);
    begin_range(out);
    for (int row = first; row <= last; row++)
        widen(of + row * MOST_FIELD, of + row * MOST_FIELD, wide, rows.least + AROUND, rows.most + AROUND);
    for (int k = 0; k <= 2 * AROUND; k++)
        widen(rows.least + k, rows.most + k, wide, out->least, out->most);
}

void divide_field(const float *of, struct field *out) {
    struct range range;
    for (int y = 0; y < out->high; y++) {
        find_ranges(of, out->wide, out->high, y, &range);
        for (int x = 0; x < out->wide; x++) {
            float here = of[y * MOST_FIELD + x];
            out->dark[y * MOST_FIELD + x] = here >= 0 && here < (range.least[x] + range.most[x]) / 2;
        }
    }
}

void sample_field(const struct plane *grey, const struct lattice *lattice, struct field *out, int *first_x,
                  int *first_y) {
    float of[MOST_FIELD * MOST_FIELD];
    *first_x = begin(lattice->part.first_x, lattice->part.last_x, &out->wide);
    *first_y = begin(lattice->part.first_y, lattice->part.last_y, &out->high);
    for (int y = 0; y < out->high; y++)
        for (int x = 0; x < out->wide; x++)
            of[y * MOST_FIELD + x] = brightness_of(grey, &lattice->warp, *first_x + x, *first_y + y);
    divide_field(of, out);
}

bool symbol_in(const struct lattice *lattice, int first_x, int first_y, const struct border *border, struct warp *out) {
    static const double turned[4][4] = {{1, 0, 0, 1}, {0, -1, 1, 0}, {-1, 0, 0, -1}, {0, 1, -1, 0}};
    const double *turn = turned[border->turns];
    bool is_on_its_side = border->turns % 2 == 1;
    struct extent extent = border->extent;
    double across = is_on_its_side ? extent.high : extent.wide, down = is_on_its_side ? extent.wide : extent.high,
           x = first_x + border->x + (turn[0] + turn[1] < 0 ? across : 0),
           y = first_y + border->y + (turn[2] + turn[3] < 0 ? down : 0);
    struct homography inner = {{{turn[0], turn[1], x}, {turn[2], turn[3], y}, {0, 0, 1}}};
    return compose_warp(&lattice->warp, &inner, extent, out);
}
