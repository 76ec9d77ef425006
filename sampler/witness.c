#include "witness.h"

#include <math.h>
#include <stdlib.h>
#include <string.h>

#include "levels.h"

/* An edge is looked for along a line across it, on which the picture is sampled TICK modules apart: the steepest place
 * within REACH ticks of where it should be, by the difference of the means of WINDOW ticks on both sides. */
enum {
    REACH = 6,
    WINDOW = 5,
    SAMPLES = 2 * (REACH + WINDOW) + 1,
    PARAMETERS = 8,
    MOST_LOOKED_AT = 700,
    MOST_PLACE = 1000
};
static const double TICK = 0.1, BESIDE = 0.25, HUBER = 0.12;
static const double LEAST_SHARE = 0.35, LEAST_CONTRAST = 4; /* of an edge: of the mean contrast, and of 255 */
static const double NEAR = 0.2;                             /* modules */
static const double STIFF = 0.002;                          /* how much a bend is held back */

static const struct part EVERYWHERE = {-MOST_PLACE, MOST_PLACE, -MOST_PLACE, MOST_PLACE};

/* A line across an edge: where it begins, the way to its next tick, and to the places beside it. */
struct line_across {
    struct point from, step, beside;
};

/* So small a part of a warp is as good as even. */
static struct line_across line_across(const struct warp *warp, const struct witness *witness) {
    double far = TICK * (REACH + WINDOW), x = witness->is_upright ? far : 0, y = witness->is_upright ? 0 : far,
           by = BESIDE / far;
    struct point from = warp_point(warp, witness->x - x, witness->y - y),
                 to = warp_point(warp, witness->x + x, witness->y + y),
                 middle = warp_point(warp, witness->x, witness->y),
                 beside = warp_point(warp, witness->x + by * y, witness->y + by * x);
    return (struct line_across){from, scale_by(difference(to, from), 1.0 / (SAMPLES - 1)), difference(beside, middle)};
}

/* Whether all of a line and what is beside it lies between pixels. */
static bool is_inside(const struct plane *plane, const struct line_across *line) {
    struct point to = sum(line->from, scale_by(line->step, SAMPLES));
    return is_between_pixels(plane, sum(line->from, line->beside)) && is_between_pixels(plane, sum(to, line->beside)) &&
           is_between_pixels(plane, difference(line->from, line->beside)) &&
           is_between_pixels(plane, difference(to, line->beside));
}

enum { ALONG = 3 };

/* The brightness across an edge, at each tick the sum of ALONG places beside one another, all between pixels. */
static void profile_between(const struct plane *plane, const struct line_across *line, int profile[SAMPLES]) {
    struct fractions from = place_in_fractions(line->from), step = way_in_fractions(line->step),
                     beside = way_in_fractions(line->beside);
    struct places places;
    int levels[MOST_PLACES];
    places.count = 0;
    for (int along = -1; along <= 1; along++) {
        struct fractions at = {from.x + along * beside.x, from.y + along * beside.y};
        add_line(&places, plane, at, step, SAMPLES);
    }
    find_levels(plane, &places, levels);
    for (int k = 0; k < SAMPLES; k++)
        profile[k] = levels[k] + levels[k + SAMPLES] + levels[k + 2 * SAMPLES];
}

static void profile_of(const struct plane *plane, const struct warp *warp, const struct witness *witness,
                       int profile[SAMPLES]) {
    struct line_across line = line_across(warp, witness);
    struct point at = line.from, beside = line.beside;
    if (is_inside(plane, &line)) {
        profile_between(plane, &line, profile);
        return;
    }
    for (int k = 0; k < SAMPLES; k++, at = sum(at, line.step))
        profile[k] = in_fractions(brightness(plane, at) + brightness(plane, sum(at, beside)) +
                              brightness(plane, difference(at, beside)));
}

/* The rise from tick to tick, by the sums of WINDOW ticks before and behind each. */
static void find_rises(const int profile[SAMPLES], int darkens, int rises[2 * REACH + 1]) {
    int rise = 0;
    for (int j = 0; j < WINDOW; j++)
        rise += profile[WINDOW + 1 + j] - profile[j];
    for (int k = 0; k <= 2 * REACH; k++) {
        rises[k] = darkens == UNKNOWN ? abs(rise) : darkens == DARK ? -rise : rise;
        if (k < 2 * REACH)
            rise += profile[k + 2 * WINDOW + 1] - profile[k + WINDOW + 1] - profile[k + WINDOW] + profile[k];
    }
}

/* How far the edge is from where it should be, in modules; returns its contrast, 0 or less if there is none. */
static double offset_of(const int profile[SAMPLES], int darkens, double *offset) {
    int rises[2 * REACH + 1], best = 0;
    find_rises(profile, darkens, rises);
    for (int k = 1; k <= 2 * REACH; k++)
        best = rises[k] > rises[best] ? k : best;
    double bend = 0;
    if (best > 0 && best < 2 * REACH) {
        double left = rises[best - 1], right = rises[best + 1], curve = left + right - 2.0 * rises[best];
        bend = curve < 0 ? 0.5 * (left - right) / curve : 0;
    }
    *offset = TICK * (best - REACH + bend);
    return best == 0 || best == 2 * REACH ? 0 : rises[best] / ((double)ALONG * WINDOW * ONE_LEVEL);
}

/* The equations of least squares for the eight parameters of a small projective change, in coordinates from -0.5 to
 * 0.5. */
struct equations {
    double matrix[PARAMETERS * PARAMETERS], values[PARAMETERS];
};

static void add_equation(struct equations *equations, const struct witness *witness, struct extent extent,
                         double offset, double weight) {
    double x = witness->x / extent.wide - 0.5, y = witness->y / extent.high - 0.5,
           place = witness->is_upright ? x : y, side = witness->is_upright ? extent.wide : extent.high;
    double row[PARAMETERS] = {0}, *three = witness->is_upright ? row : row + 3;
    weight *= side * side / ((double)extent.wide * extent.high); /* an equation counts as in modules */
    three[0] = 1, three[1] = x, three[2] = y, row[6] = place * x, row[7] = place * y;
    for (int k = 0; k < PARAMETERS; k++) {
        equations->values[k] += weight * row[k] * offset / side;
        for (int j = 0; j < PARAMETERS; j++)
            equations->matrix[k * PARAMETERS + j] += weight * row[k] * row[j];
    }
}

static struct homography changed(const struct homography *to_picture, const double change[PARAMETERS],
                                 struct extent extent) {
    double wide = extent.wide, high = extent.high;
    struct homography inner = {{{1 / wide, 0, -0.5}, {0, 1 / high, -0.5}, {0, 0, 1}}};
    struct homography warp = {
        {{1 + change[1], change[2], change[0]}, {change[4], 1 + change[5], change[3]}, {-change[6], -change[7], 1}}};
    struct homography outer = {{{wide, 0, 0.5 * wide}, {0, high, 0.5 * high}, {0, 0, 1}}};
    struct homography first = compose(&warp, &inner), second = compose(&outer, &first);
    return compose(to_picture, &second);
}

static bool lies_in(const struct witness *witness, struct part part) {
    return witness->x >= part.first_x && witness->x <= part.last_x && witness->y >= part.first_y &&
           witness->y <= part.last_y;
}

struct edge {
    const struct witness *witness;
    double offset, contrast;
};

/* Looks at the edges of a part, at most MOST_LOOKED_AT; returns their number. */
static int look_at(const struct plane *plane, const struct layout *layout, struct part part, const struct warp *warp,
                   struct edge *edges) {
    int inside = 0, count = 0, seen = 0;
    for (int k = 0; k < layout->witness_count; k++)
        inside += lies_in(&layout->witnesses[k], part);
    int every = inside / MOST_LOOKED_AT + 1;
    for (int k = 0; k < layout->witness_count && count < MOST_LOOKED_AT; k++) {
        const struct witness *witness = &layout->witnesses[k];
        if (!lies_in(witness, part) || seen++ % every > 0)
            continue;
        int profile[SAMPLES];
        profile_of(plane, warp, witness, profile);
        edges[count].witness = witness;
        edges[count].contrast = offset_of(profile, witness->darkens, &edges[count].offset);
        count++;
    }
    return count;
}

int64_t work_of_fitting(const struct layout *layout) {
    enum { WORK_OF_AN_EDGE = 900 };
    return WORK_OF_AN_EDGE * (int64_t)(layout->witness_count < MOST_LOOKED_AT ? layout->witness_count : MOST_LOOKED_AT);
}

double refine(const struct plane *plane, const struct layout *layout, struct part part, double stiff, int rounds,
              double least, struct warp *warp) {
    double share = 0;
    for (int round = 0; round < rounds; round++) {
        struct edge edges[MOST_LOOKED_AT];
        struct equations equations = {0};
        int count = look_at(plane, layout, part, warp, edges), near = 0;
        double mean = 0;
        for (int k = 0; k < count; k++)
            mean += fmax(edges[k].contrast, 0) / count;
        for (int k = 0; k < count; k++) {
            if (edges[k].contrast < LEAST_SHARE * mean || edges[k].contrast < LEAST_CONTRAST)
                continue;
            double off = fabs(edges[k].offset), huber = HUBER * (rounds - round);
            near += off < 0.35;
            add_equation(&equations, edges[k].witness, layout->extent, edges[k].offset, off < huber ? 1 : huber / off);
        }
        share = count > 0 ? (double)near / count : 0;
        if (round == 0 && share < least)
            break;
        for (int k = 0; k < PARAMETERS; k++)
            equations.matrix[k * PARAMETERS + k] += stiff * (k < 6 ? 1 : 4);
        if (near < PARAMETERS || !solve(equations.matrix, equations.values, PARAMETERS))
            break;
        warp->to_picture = changed(&warp->to_picture, equations.values, layout->extent);
    }
    return share;
}

/* ---- Bent surfaces */

/* The equations of least squares for what is to be added to the polynomials. */
struct bending {
    double matrix[2][TERMS * TERMS], values[2][TERMS];
};

static void add_bend(struct bending *bending, const struct witness *witness, const struct warp *warp, double offset,
                     double weight) {
    double terms[TERMS];
    double *matrix = bending->matrix[witness->is_upright ? 0 : 1],
           *values = bending->values[witness->is_upright ? 0 : 1];
    find_terms_at(warp, witness->x, witness->y, terms);
    for (int k = 0; k < TERMS; k++) {
        values[k] += weight * terms[k] * offset / warp->unit;
        for (int j = 0; j < TERMS; j++)
            matrix[k * TERMS + j] += weight * terms[k] * terms[j];
    }
}

static bool add_solution(struct bending *bending, struct warp *warp) {
    for (int way = 0; way < 2; way++) {
        for (int k = 0; k < TERMS; k++)
            bending->matrix[way][k * TERMS + k] += STIFF;
        if (!solve(bending->matrix[way], bending->values[way], TERMS))
            return false;
        for (int k = 0; k < TERMS; k++)
            *(way == 0 ? &warp->right[k] : &warp->down[k]) += bending->values[way][k];
    }
    return true;
}

static double mean_of(const struct edge *edges, int count) {
    double mean = 0;
    for (int k = 0; k < count; k++)
        mean += fmax(edges[k].contrast, 0) / count;
    return mean;
}

double bend(const struct plane *plane, const struct layout *layout, int rounds, struct warp *warp) {
    double share = 0;
    for (int round = 0; round < rounds; round++) {
        struct edge edges[MOST_LOOKED_AT];
        struct bending bending = {0};
        int count = look_at(plane, layout, EVERYWHERE, warp, edges), clear = 0, near = 0;
        double least = fmax(LEAST_SHARE * mean_of(edges, count), LEAST_CONTRAST), huber = HUBER * (rounds - round);
        for (int k = 0; k < count; k++) {
            double off = fabs(edges[k].offset);
            if (edges[k].contrast < least)
                continue;
            clear++, near += off < NEAR;
            add_bend(&bending, edges[k].witness, warp, edges[k].offset, off < huber ? 1 : huber / off);
        }
        share = clear > 0 ? (double)near / clear : 0;
        if (clear < 2 * TERMS || !add_solution(&bending, warp))
            break;
    }
    return share;
}

/* ---- How well edges lie where they should */

struct support support_of(const struct plane *plane, const struct layout *layout, const struct warp *warp,
                          double least, double share) {
    struct edge edges[MOST_LOOKED_AT];
    int count = look_at(plane, layout, EVERYWHERE, warp, edges), clear = 0, near = 0;
    double mean = mean_of(edges, count), most = fmax(least, share * mean);
    for (int k = 0; k < count; k++)
        if (edges[k].contrast >= most)
            clear++, near += fabs(edges[k].offset) < NEAR;
    return (struct support){mean, (double)clear / (count > 0 ? count : 1), (double)near / (clear > 0 ? clear : 1)};
}
