#include "turns.h"

#include <math.h>

/* Along a border; how finely waves are told apart; and the parts of one by which a border may be longer or shorter. */
enum { PLACES = 512, PARTS = 4, STEPS = PLACES * PARTS, NEAR = 2, WAVES = 2 * NEAR + 1, LANES = 8 };
static const double PI = 3.14159265358979323846;
static const double ROWS[] = {-0.5, 0, 0.5, 1}; /* modules from the edge inwards, at which borders are looked at */

struct turns {
    float wave[STEPS];     /* one wave, step by step */
    float levels[PLACES];  /* the brightness along a border without its mean, less at the ends */
    double energy;
    float cosines[WAVES][PLACES], sines[WAVES][PLACES]; /* the waves of a side, place by place */
};

static void begin(struct turns *turns) {
    for (int k = 0; k < STEPS; k++)
        turns->wave[k] = (float)cos(2 * PI * k / STEPS);
}

/* Makes the waves that come about so often, in parts of one. */
static void make_waves(struct turns *turns, int parts) {
    for (int wave = 0; wave < WAVES; wave++)
        for (int k = 0; k < PLACES; k++) {
            int at = k * (parts - NEAR + wave) % STEPS;
            turns->cosines[wave][k] = turns->wave[at];
            turns->sines[wave][k] = turns->wave[(at + STEPS - STEPS / 4) % STEPS];
        }
}

/* Looks along a line from one place to another, in modules. */
static void look_along(const struct plane *picture, const struct warp *warp, struct point from, struct point to,
                       struct turns *turns) {
    double total = 0;
    for (int k = 0; k < PLACES; k++) {
        struct point at = sum(from, scale_by(difference(to, from), (k + 0.5) / PLACES));
        turns->levels[k] = (float)brightness(picture, warp_point(warp, at.x, at.y));
        total += turns->levels[k];
    }
    turns->energy = 0;
    for (int k = 0; k < PLACES; k++) {
        double fade = 0.5 - 0.5 * turns->wave[k * PARTS];
        turns->levels[k] = (float)((turns->levels[k] - total / PLACES) * fade);
        turns->energy += turns->levels[k] * turns->levels[k];
    }
}

/* The sum of the products, in lanes. */
static double product(const float *one, const float *other) {
    float sums[LANES] = {0};
    double total = 0;
    for (int k = 0; k < PLACES; k += LANES)
        for (int lane = 0; lane < LANES; lane++)
            sums[lane] += one[k + lane] * other[k + lane];
    for (int lane = 0; lane < LANES; lane++)
        total += sums[lane];
    return total;
}

/* How strong the strongest of the waves is. */
static double strength_of(const struct turns *turns) {
    double most = 0;
    for (int wave = 0; wave < WAVES; wave++) {
        double cosine = product(turns->levels, turns->cosines[wave]), sine = product(turns->levels, turns->sines[wave]);
        most = fmax(most, cosine * cosine + sine * sine);
    }
    return turns->energy > 0 ? sqrt(most / turns->energy) : 0;
}

int side_by_turns(const struct plane *picture, const struct warp *warp, int side, const struct layouts *shapes,
                  double *strength) {
    struct turns turns;
    int best = 0;
    begin(&turns);
    *strength = 0;
    for (int k = 0; k < shapes->squares; k++) {
        int wide = shapes->shapes[k].wide;
        make_waves(&turns, PARTS * wide / 2);
        for (size_t row = 0; row < 2 * (sizeof ROWS / sizeof *ROWS); row++) {
            double in = ROWS[row / 2] * side / wide;
            struct point up = point_at(0, in), right = point_at(side - in, 0);
            bool is_upper = row % 2 == 0;
            look_along(picture, warp, is_upper ? up : right, is_upper ? point_at(side, in) : point_at(side - in, side),
                       &turns);
            double here = strength_of(&turns);
            if (here > *strength)
                *strength = here, best = wide;
        }
    }
    return best;
}
