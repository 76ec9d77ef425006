/* Tries whether the alternating borders of a symbol are followed though a part of one of them doesn't show. It is light
 * inside beside them, so that nothing else can be followed; for tests/sampler. */
#include "track.h"

#include <math.h>
#include <stdio.h>

enum { SIDE = 40, MODULE = 5, QUIET = 4, WIDE = (SIDE + 2 * QUIET) * MODULE };

/* What a part of the upper border shows in the place of its modules. */
enum look { ALL_LIGHT, ALL_DARK, PAIRS };

struct hidden {
    int first, count; /* modules */
    enum look look;
};

/* Whether a module is dark: of the border of a symbol of one region, and of what it holds. */
static int is_dark(int column, int row, struct hidden hidden) {
    int is_hidden = row == 0 && column >= hidden.first && column < hidden.first + hidden.count;
    if (is_hidden)
        return hidden.look == ALL_DARK || (hidden.look == PAIRS && column / 2 % 2 == 0);
    if (column == 0 || row == SIDE - 1)
        return 1;
    if (row == 0 || column == SIDE - 1)
        return row == 0 ? column % 2 == 0 : row % 2 == 1;
    return row > 8 && column < SIDE - 9 && (column * 7 + row * 11 + column * row) % 5 < 2;
}

static void draw(struct hidden hidden, uint8_t *pixels) {
    for (int y = 0; y < WIDE; y++)
        for (int x = 0; x < WIDE; x++) {
            int column = x / MODULE - QUIET, row = y / MODULE - QUIET;
            int is_inside = column >= 0 && row >= 0 && column < SIDE && row < SIDE;
            pixels[y * WIDE + x] = is_inside && is_dark(column, row, hidden) ? 20 : 230;
        }
}

/* Whether a placement is that of the symbol, but for a module. */
static int is_right(const struct placement *placement) {
    double first = QUIET * MODULE, last = first + SIDE * MODULE, most = MODULE;
    struct point corner = warp_point(&placement->warp, SIDE, 0), other = warp_point(&placement->warp, 0, SIDE);
    return placement->extent.wide == SIDE && placement->extent.high == SIDE && fabs(corner.x - last) < most &&
           fabs(corner.y - first) < most && fabs(other.x - first) < most && fabs(other.y - last) < most;
}

/* Whether one of the likeliest placements of the symbol's own elbow is the symbol. */
static int is_followed(struct hidden hidden) {
    static uint8_t pixels[WIDE * WIDE];
    static struct layouts shapes;
    struct placement out[MOST_PLACEMENTS];
    struct plane picture = {.width = WIDE, .height = WIDE, .stride = WIDE, .pixels = pixels}, grey, dark;
    struct limit limit = limit_from_now(ECC200_SAMPLE_ANY_TIME, ECC200_SAMPLE_ANY_EFFORT, 1);
    double first = QUIET * MODULE, last = first + SIDE * MODULE;
    struct elbow elbow = {
        point_at(first, last), point_at(first, first), point_at(last, last), MODULE, MODULE, false, false, true, 1};
    list_shapes(&shapes);
    draw(hidden, pixels);
    if (!plane_smooth(&picture, &limit, &grey) ||
        !plane_darken(&grey, (struct surroundings){8, 2, false, 0}, &limit, &dark))
        return 0;
    int count = placements_of(&(struct scene){&grey, &dark, &limit}, &shapes, &elbow, out);
    plane_free(&grey);
    plane_free(&dark);
    layouts_free(&shapes);
    int is_there = 0;
    for (int k = 0; k < count; k++)
        is_there |= is_right(&out[k]);
    return is_there;
}

/* For each look and first module, how many modules may be hidden at least. */
static const struct hidden HIDDEN[] = {{0, 11, ALL_LIGHT}, {4, 8, ALL_LIGHT}, {7, 6, ALL_LIGHT}, {14, 4, ALL_LIGHT},
                                       {0, 12, ALL_DARK},  {4, 8, ALL_DARK},  {7, 6, ALL_DARK},  {0, 15, PAIRS},
                                       {8, 15, PAIRS},     {14, 15, PAIRS}};

int main(void) {
    int lost = 0;
    for (size_t k = 0; k < sizeof HIDDEN / sizeof *HIDDEN; k++)
        for (struct hidden hidden = {HIDDEN[k].first, 0, HIDDEN[k].look}; hidden.count <= HIDDEN[k].count;
             hidden.count++)
            if (!is_followed(hidden))
                lost += printf("%d modules from %d on as %d\n", hidden.count, hidden.first, hidden.look) > 0;
    return lost;
}
