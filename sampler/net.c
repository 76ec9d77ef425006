#include "net.h"

#include <math.h>
#include <stdlib.h>
#include <string.h>

#include "field.h"
#include "levels.h"

enum { AROUND = 3, MOST_WEAK = 3, SETTLING = 3, POINTS = 4, QUARTERS = 4 };
enum { SURE_ENOUGH = 9 }; /* not to be looked at again while it waits */
enum { OF_THE_RIM = 5, LEAST_AROUND = 4, LEAST_TO_FILL = 3, FILLINGS = 4 }; /* of the eight knots around one; rounds */
/* An edge is looked for up to REACH ticks beside its place, by the difference HALF ticks before and behind it. */
enum { REACH = 5, HALF = 3, SAMPLES = 2 * (REACH + HALF) + 1 };
static const double TICK = 0.1, BESIDE = 0.2; /* modules */
static const double LEAST_CONTRAST = 4;
static const double LEAST_SHARE = 0.5;           /* of the contrast of the first knots' edges, for one to be clear */
static const double NEAR = 0.2;                  /* modules: of an edge to its place */
static const double STIFF = 0.5;                 /* of a knot, in edges */
static const double CURVED = 1;                  /* how much a net is held back from curving around a knot, in knots */
static const double LEAST_NEAR = 0.55;           /* of the clear edges of the first knots */
static const double FIRST = -0.27, APART = 0.18; /* modules: where the points of a module are */

enum { PLANE = 3, TERMS_OF_PLACE = 6, FIRST_REACH = 2, WORK_OF_A_KNOT = 2200 };

/* ---- Knots */

/* Where a knot lies by those around it, and the ways to the next one on the right and below. */
struct place {
    struct point at, right, down;
};

static int knot_at(int x, int y) {
    return (y + NET_REACH) * NET_SIDE + x + NET_REACH;
}

static bool is_in_reach(int x, int y) {
    return x >= -NET_REACH && y >= -NET_REACH && x <= NET_REACH && y <= NET_REACH;
}

/* The equations of least squares for where a knot lies. */
struct placing {
    double matrix[TERMS_OF_PLACE * TERMS_OF_PLACE], right[TERMS_OF_PLACE], down[TERMS_OF_PLACE];
};

/* Adds the knots around one. The matrix is symmetric, and whole powers of two make both halves exactly alike. */
static void add_around(const struct net *net, int x, int y, struct placing *out) {
    for (int down = -AROUND; down <= AROUND; down++)
        for (int right = -AROUND; right <= AROUND; right++) {
            int knot = knot_at(x + right, y + down);
            if (!is_in_reach(x + right, y + down) || net->is_weak[knot] == 0)
                continue;
            double terms[TERMS_OF_PLACE] = {1, right, down, right * right, right * down, down * down},
                   weight = 1.0 / net->is_weak[knot];
            struct point at = net->at[knot];
            for (int k = 0; k < TERMS_OF_PLACE; k++) {
                double term = weight * terms[k];
                out->right[k] += term * at.x, out->down[k] += term * at.y;
                for (int j = 0; j <= k; j++)
                    out->matrix[TERMS_OF_PLACE * k + j] += term * terms[j];
            }
        }
    for (int k = 0; k < TERMS_OF_PLACE; k++)
        for (int j = k + 1; j < TERMS_OF_PLACE; j++)
            out->matrix[TERMS_OF_PLACE * k + j] = out->matrix[TERMS_OF_PLACE * j + k];
}

/* By the surface through the knots around it, which is held back from curving. False if these don't tell. */
static bool place_by_others(const struct net *net, int x, int y, struct place *out) {
    struct placing of = {0};
    add_around(net, x, y, &of);
    for (int k = PLANE; k < TERMS_OF_PLACE; k++)
        of.matrix[TERMS_OF_PLACE * k + k] += CURVED;
    bool is_told = solve_both(of.matrix, of.right, of.down, TERMS_OF_PLACE);
    *out = (struct place){point_at(of.right[0], of.down[0]), point_at(of.right[1], of.down[1]),
                          point_at(of.right[2], of.down[2])};
    return is_told;
}

/* ---- Edges */

struct edge {
    double offset, contrast; /* modules; brightness */
};

/* The levels along a line, at each step the sum of two places beside it. */
static void look_across(const struct plane *grey, struct point from, struct point step, struct point beside,
                        int levels[SAMPLES]) {
    struct point to = sum(from, scale_by(step, SAMPLES)), one = sum(from, beside), other = difference(from, beside);
    bool is_inside = is_between_pixels(grey, one) && is_between_pixels(grey, other) &&
                     is_between_pixels(grey, sum(to, beside)) && is_between_pixels(grey, difference(to, beside));
    for (int k = 0; k < SAMPLES && !is_inside; k++, one = sum(one, step), other = sum(other, step))
        levels[k] = in_fractions(brightness(grey, one) + brightness(grey, other));
    if (!is_inside)
        return;
    struct places places;
    int both[MOST_PLACES];
    places.count = 0;
    add_line(&places, grey, place_in_fractions(one), way_in_fractions(step), SAMPLES);
    add_line(&places, grey, place_in_fractions(other), way_in_fractions(step), SAMPLES);
    find_levels(grey, &places, both);
    for (int k = 0; k < SAMPLES; k++)
        levels[k] = both[k] + both[k + SAMPLES];
}

/* The edge near a place, across one way and along the other. */
static struct edge edge_near(const struct plane *grey, struct point at, struct point across, struct point along) {
    int levels[SAMPLES], rises[2 * REACH + 1], best = 0;
    struct point from = sum(at, scale_by(across, -TICK * (REACH + HALF)));
    look_across(grey, from, scale_by(across, TICK), scale_by(along, BESIDE), levels);
    for (int k = 0; k <= 2 * REACH; k++) {
        rises[k] = abs(levels[k + 2 * HALF] - levels[k]);
        best = rises[k] > rises[best] ? k : best;
    }
    if (best == 0 || best == 2 * REACH)
        return (struct edge){0, 0};
    double left = rises[best - 1], right = rises[best + 1], curve = left + right - 2.0 * rises[best];
    return (struct edge){TICK * (best - REACH + (curve < 0 ? 0.5 * (left - right) / curve : 0)),
                         rises[best] / (2.0 * ONE_LEVEL)};
}

enum { EDGES = 4 };

/* The four edges that meet at a knot: above, below, on the left and on the right. */
static void look_at_edges(const struct net *net, const struct place *place, struct edge out[EDGES]) {
    for (int k = 0; k < EDGES; k++) {
        bool is_upright = k < 2;
        struct point along = is_upright ? place->down : place->right, across = is_upright ? place->right : place->down;
        out[k] = edge_near(net->grey, sum(place->at, scale_by(along, k % 2 == 0 ? -0.5 : 0.5)), across, along);
    }
}

/* What the edges at a knot show: how many are clear and near its place, how many are clear and elsewhere, and where the
 * knot lies by them. */
struct shown {
    int near, far;
    struct point at;
};

/* Looks at a knot where those around it have it. False if these don't tell. */
static bool look_at(const struct net *net, int x, int y, struct shown *out) {
    struct edge edges[EDGES];
    struct place place;
    double offsets[2] = {0}, counts[2] = {0};
    if (!place_by_others(net, x, y, &place))
        return false;
    limit_spend(net->limit, WORK_OF_A_KNOT);
    look_at_edges(net, &place, edges);
    *out = (struct shown){0};
    for (int k = 0; k < EDGES; k++) {
        if (edges[k].contrast < net->least || edges[k].contrast <= 0)
            continue;
        bool is_near = fabs(edges[k].offset) < NEAR;
        out->near += is_near, out->far += !is_near;
        offsets[k / 2] += edges[k].offset, counts[k / 2]++;
    }
    out->at = sum(place.at, sum(scale_by(place.right, offsets[0] / (counts[0] + STIFF)),
                                scale_by(place.down, offsets[1] / (counts[1] + STIFF))));
    return true;
}

/* How many of the eight knots around one are there. */
static int known_around(const struct net *net, int x, int y) {
    int count = 0;
    for (int k = 0; k < 9; k++) {
        int right = x + k % 3 - 1, down = y + k / 3 - 1;
        count += k != 4 && is_in_reach(right, down) && net->is_weak[knot_at(right, down)] > 0;
    }
    return count;
}

/* 1 for a knot that edges show, and one more than those beside it for others. */
static int weakness_of(const struct net *net, int x, int y, const struct shown *shown) {
    int least = MOST_WEAK;
    for (int k = 0; k < 4; k++) {
        int right = x + (k == 0) - (k == 1), down = y + (k == 2) - (k == 3);
        int weak = is_in_reach(right, down) ? net->is_weak[knot_at(right, down)] : 0;
        least = weak > 0 && weak < least ? weak : least;
    }
    return shown->near + shown->far > 0 ? 1 : least + 1;
}

static void put(struct net *net, int knot, struct point at, int is_weak) {
    if (net->is_weak[knot] == 0)
        net->knots[net->count++] = knot;
    net->at[knot] = at, net->is_weak[knot] = (uint8_t)is_weak;
}

/* Puts a knot where those around it and then the edges have it, unless it is too far from any edge. */
static void settle(struct net *net, int x, int y) {
    struct shown shown;
    if (!look_at(net, x, y, &shown))
        return;
    int weak = weakness_of(net, x, y, &shown);
    if (weak <= MOST_WEAK)
        put(net, knot_at(x, y), shown.at, weak);
}

static void settle_all(struct net *net) {
    for (int k = 0; k < net->count && !limit_reached(net->limit); k++)
        settle(net, net->knots[k] % NET_SIDE - NET_REACH, net->knots[k] / NET_SIDE - NET_REACH);
}

/* ---- Growing */

static void begin(const struct homography *to_picture, struct net *net) {
    for (int y = -FIRST_REACH; y <= FIRST_REACH; y++)
        for (int x = -FIRST_REACH; x <= FIRST_REACH; x++)
            put(net, knot_at(x, y), map_point(to_picture, x, y), 1);
}

/* How sure a knot is, from 1 on: by the edges that lie where those around it have them, and by how many these are; 0
 * if it may be outside of the symbol. */
static int sureness_of(const struct net *net, int x, int y, const struct shown *shown) {
    int around = known_around(net, x, y), sure = 3 * (shown->near - shown->far) + around;
    bool is_shown = shown->near > shown->far || around >= LEAST_AROUND;
    return !is_shown ? 0 : sure < 1 ? 1 : sure < MOST_SURE ? sure : MOST_SURE;
}

/* Lets a knot wait until none is surer, if it doesn't wait as a sure one. */
static void let_wait(struct net *net, int x, int y) {
    struct shown shown;
    int knot = knot_at(x, y);
    if (net->sure[knot] >= SURE_ENOUGH || net->waiting == MOST_WAITING || !look_at(net, x, y, &shown))
        return;
    int sure = sureness_of(net, x, y, &shown);
    if (sure <= net->sure[knot])
        return;
    net->sure[knot] = (uint8_t)sure;
    net->queue[net->waiting] = (struct waiting){knot, net->last[sure], weakness_of(net, x, y, &shown), shown.at};
    net->last[sure] = ++net->waiting;
}

/* Takes the surest of those that wait. NULL if there is none. */
static const struct waiting *take_surest(struct net *net) {
    for (int sure = MOST_SURE; sure > 0; sure--)
        if (net->last[sure] > 0) {
            const struct waiting *here = &net->queue[net->last[sure] - 1];
            net->last[sure] = here->before;
            return here;
        }
    return NULL;
}

/* Does something with those of the four beside a knot that aren't there. */
static void for_each_beside(struct net *net, int knot, void (*act)(struct net *, int, int)) {
    int x = knot % NET_SIDE - NET_REACH, y = knot / NET_SIDE - NET_REACH;
    for (int way = 0; way < 4; way++) {
        int right = x + (way == 0) - (way == 1), down = y + (way == 2) - (way == 3);
        if (is_in_reach(right, down) && net->is_weak[knot_at(right, down)] == 0)
            act(net, right, down);
    }
}

/* Looks again at a knot and at those around it that have few others around them yet: what came since tells more. */
static void settle_rim(struct net *net, int knot) {
    for (int k = 0; k < 9; k++) {
        int x = knot % NET_SIDE - NET_REACH + k % 3 - 1, y = knot / NET_SIDE - NET_REACH + k / 3 - 1;
        if (is_in_reach(x, y) && net->is_weak[knot_at(x, y)] > 0 && known_around(net, x, y) < OF_THE_RIM)
            settle(net, x, y);
    }
}

static void grow(struct net *net) {
    int first = net->count;
    memset(net->sure, 0, sizeof net->sure);
    memset(net->last, 0, sizeof net->last);
    net->waiting = 0;
    for (int k = 0; k < first; k++)
        for_each_beside(net, net->knots[k], let_wait);
    for (const struct waiting *next; !limit_reached(net->limit) && (next = take_surest(net)) != NULL;)
        if (net->is_weak[next->knot] == 0) {
            put(net, next->knot, next->at, next->is_weak);
            settle_rim(net, next->knot);
            for_each_beside(net, next->knot, let_wait);
        }
}

/* The mean contrast of the edges at the knots, or the share of those clear that lie where they should. */
static double mean_of_edges(const struct net *net, double *near) {
    struct edge edges[EDGES];
    struct place place;
    double total = 0, clear = 0, at_place = 0;
    for (int k = 0; k < net->count; k++) {
        if (!place_by_others(net, net->knots[k] % NET_SIDE - NET_REACH, net->knots[k] / NET_SIDE - NET_REACH, &place))
            continue;
        place.at = net->at[net->knots[k]];
        look_at_edges(net, &place, edges);
        for (int j = 0; j < EDGES; j++) {
            total += edges[j].contrast;
            clear += edges[j].contrast >= net->least && edges[j].contrast > 0;
            at_place += edges[j].contrast >= net->least && edges[j].contrast > 0 && fabs(edges[j].offset) < NEAR;
        }
    }
    *near = clear > 0 ? at_place / clear : 0;
    limit_spend(net->limit, (int64_t)WORK_OF_A_KNOT * net->count);
    return total / (EDGES * net->count);
}

bool grow_net(const struct plane *grey, const struct homography *to_picture, struct limit *limit, struct net *out) {
    double near;
    memset(out->is_weak, 0, sizeof out->is_weak);
    out->grey = grey, out->limit = limit, out->least = 0, out->count = 0;
    begin(to_picture, out);
    out->least = fmax(LEAST_SHARE * mean_of_edges(out, &near), LEAST_CONTRAST);
    for (int round = 0; round < SETTLING; round++)
        settle_all(out);
    mean_of_edges(out, &near);
    if (near < LEAST_NEAR)
        return false;
    grow(out);
    settle_all(out);
    return true;
}

/* ---- Modules */

/* Whether a net has all four knots of a module. */
static bool has_module(const struct net *net, int x, int y) {
    return is_in_reach(x, y) && is_in_reach(x + 1, y + 1) && net->is_weak[knot_at(x, y)] > 0 &&
           net->is_weak[knot_at(x + 1, y)] > 0 && net->is_weak[knot_at(x, y + 1)] > 0 &&
           net->is_weak[knot_at(x + 1, y + 1)] > 0;
}

/* A point of a module, from 0 to 1 each way. */
static struct point point_in(const struct net *net, int x, int y, double right, double down) {
    const struct point *upper = &net->at[knot_at(x, y)], *lower = upper + NET_SIDE;
    struct point above = sum(upper[0], scale_by(difference(upper[1], upper[0]), right)),
                 below = sum(lower[0], scale_by(difference(lower[1], lower[0]), right));
    return sum(above, scale_by(difference(below, above), down));
}

/* How bright a module is, and its darkest quarter. */
static float brightness_of(const struct net *net, const struct plane *picture, double scale, int x, int y,
                           float *darkest) {
    double quarters[QUARTERS] = {0}, total = 0, least = INFINITY;
    for (int k = 0; k < POINTS * POINTS; k++) {
        struct point at = point_in(net, x, y, 0.5 + FIRST + APART * (k % POINTS), 0.5 + FIRST + APART * (k / POINTS));
        quarters[2 * (k / POINTS / 2) + k % POINTS / 2] += brightness(picture, scale_by(at, scale));
    }
    for (int k = 0; k < QUARTERS; k++)
        total += quarters[k], least = fmin(least, quarters[k]);
    *darkest = (float)(least * QUARTERS / (POINTS * POINTS));
    return (float)(total / (POINTS * POINTS));
}

/* The first and last column, or row, of the knots. */
static void find_ends(const struct net *net, bool is_row, int *first, int *last) {
    *first = NET_REACH, *last = -NET_REACH;
    for (int k = 0; k < net->count; k++) {
        int at = (is_row ? net->knots[k] / NET_SIDE : net->knots[k] % NET_SIDE) - NET_REACH;
        *first = at < *first ? at : *first, *last = at > *last ? at : *last;
    }
}

/* The first of at most MOST_FIELD modules in the middle of these, and how many. */
static int first_of(int first, int last, int *count) {
    *count = last - first < MOST_FIELD ? last - first : MOST_FIELD;
    return (first + last - *count) / 2;
}

void take_field(const struct net *net, struct field *out, int *first_x, int *first_y) {
    float of[MOST_FIELD * MOST_FIELD], darkest;
    int first, last;
    find_ends(net, false, &first, &last);
    *first_x = first_of(first, last, &out->wide);
    find_ends(net, true, &first, &last);
    *first_y = first_of(first, last, &out->high);
    for (int y = 0; y < out->high; y++)
        for (int x = 0; x < out->wide; x++)
            of[y * MOST_FIELD + x] = has_module(net, *first_x + x, *first_y + y)
                                         ? brightness_of(net, net->grey, 1, *first_x + x, *first_y + y, &darkest)
                                         : -1;
    divide_field(of, out);
}

/* The module of a net that one of an upright symbol is, or the knot at its upper left, if `is_knot`. */
static void find_module(const struct border *border, int column, int row, bool is_knot, int *x, int *y) {
    int wide = border->extent.wide - !is_knot, high = border->extent.high - !is_knot;
    switch (border->turns) {
    case 0: *x = column, *y = row; break;
    case 1: *x = high - row, *y = column; break;
    case 2: *x = wide - column, *y = high - row; break;
    default: *x = row, *y = wide - column; break;
    }
}

/* Puts the knots of a part that aren't there where those around them have them. */
static void fill_in(struct net *net, struct part part) {
    struct place place;
    for (int round = 0; round < FILLINGS; round++)
        for (int y = part.first_y; y <= part.last_y; y++)
            for (int x = part.first_x; x <= part.last_x; x++)
                if (is_in_reach(x, y) && net->is_weak[knot_at(x, y)] == 0 && known_around(net, x, y) >= LEAST_TO_FILL &&
                    place_by_others(net, x, y, &place))
                    put(net, knot_at(x, y), place.at, 2);
}

bool sample_net(struct net *net, const struct plane *picture, double scale, int first_x, int first_y,
                const struct border *border, struct brightnesses *out, struct point corners[4]) {
    struct extent extent = border->extent;
    bool has_all = true;
    int x, y;
    out->extent = extent;
    first_x += border->x, first_y += border->y;
    int across = border->turns % 2 == 0 ? extent.wide : extent.high, down = extent.wide + extent.high - across;
    fill_in(net, (struct part){first_x, first_x + across, first_y, first_y + down});
    for (int k = 0; k < extent.wide * extent.high && has_all; k++) {
        find_module(border, k % extent.wide, k / extent.wide, false, &x, &y);
        has_all = has_module(net, first_x + x, first_y + y);
        if (has_all)
            out->of[k] = brightness_of(net, picture, scale, first_x + x, first_y + y, &out->darkest[k]);
    }
    for (int k = 0; k < 4 && has_all; k++) {
        find_module(border, k % 3 == 0 ? 0 : extent.wide, k < 2 ? 0 : extent.high, true, &x, &y);
        corners[k] = scale_by(net->at[knot_at(first_x + x, first_y + y)], scale);
    }
    return has_all;
}
