#include "finder.h"

#include <math.h>
#include <stdlib.h>

static const double LEAST_SINE = 0.7, LEAST_RATIO = 0.035, LEAST_SOLID = 0.7;
/* Of the two borders' lengths: below it an elbow may be a rectangle's, and no square's. */
static const double LEAST_OF_SQUARE = 0.4;
/* How far from the corner a border may end: pixels, and a share of its length. */
static const double MOST_GAP = 3, MOST_GAP_SHARE = 0.2;
/* Of the turns from dark to light and back that modules of chance have. */
static const double LEAST_LIVELINESS = 0.3, MOST_LIVELINESS = 2.5;
/* Of the numbers of modules that the two borders seem to have, more over fewer; and of the widths of modules along the
 * two, where these are too unlike for a square. */
static const double MOST_UNEVEN = 2.5, MOST_OBLONG = 2;
static const double WIDEST_MODULE = 0.1, WIDEST_OF_LONG = 0.14; /* of a border */

enum { WORK_OF_A_LINE = 1000, WORK_OF_AN_ELBOW = 40000 };

/* ---- The width of a module */

/* How far it is dark from a point on a border inwards, in pixels. */
static double depth_at(const struct plane *dark, struct point at, struct point inwards, double most) {
    double depth = 0, light = 0;
    for (double way = 0.5; way < most && light < 1.5; way += 0.5) {
        bool is_dark = dark_at(dark, sum(at, scale_by(inwards, way))) != 0;
        light = is_dark ? 0 : light + 0.5;
        depth = is_dark ? way + 0.25 : depth;
    }
    return depth;
}

/* About how wide a module is along `inwards`, but no wider than `widest`: the solid border is one module deep wherever
 * a light one follows. */
static double module_width(const struct plane *dark, struct point from, struct point to, struct point inwards,
                           double widest) {
    enum { PLACES = 96, DEPTHS = 256, BEYOND = 3 };
    double whole = length(difference(to, from)), most = fmin(whole / 6, widest + BEYOND);
    int histogram[DEPTHS] = {0}, counted = 0;
    for (int k = 0; k < PLACES; k++) {
        struct point at = sum(from, scale_by(difference(to, from), 0.05 + 0.9 * k / PLACES));
        int depth = (int)(2 * depth_at(dark, at, inwards, most));
        if (depth > 1)
            histogram[depth < DEPTHS ? depth : DEPTHS - 1]++, counted++;
    }
    int passed = 0, depth = 0;
    while (depth < DEPTHS - 1 && (passed += histogram[depth]) * 10 < counted * 3)
        depth++;
    return fmin(fmax(1, 0.5 * depth + 0.25), widest);
}

/* ---- Elbows */

/* The share of dark pixels along a line, `inwards` pixels to its right; if it is below `least`, any that is. */
static double solidity(const struct plane *dark, struct point from, struct point to, double inwards, double least) {
    struct point way = difference(to, from);
    double whole = length(way);
    struct point across = scale_by(point_at(-way.y, way.x), inwards / whole);
    int steps = (int)whole + 1, count = 0;
    double most_light = (1 - least) * (steps + 1) + 1;
    for (int k = 0; k <= steps && k - count <= most_light; k++) {
        struct point at = sum(sum(from, scale_by(way, (0.04 + 0.92 * k) / (steps + 1))), across);
        count += dark_at(dark, at);
    }
    return (double)count / (steps + 1);
}

/* How dark both borders of an elbow are inside, and less so outside; below LEAST_SOLID if one isn't. */
static double solidity_of(const struct plane *dark, const struct elbow *elbow) {
    const struct point from[] = {elbow->right, elbow->corner}, to[] = {elbow->corner, elbow->top};
    double inside[2], solid = 1;
    for (int side = 0; side < 2; side++) {
        inside[side] = solidity(dark, from[side], to[side], 1.2, LEAST_SOLID);
        if (inside[side] < LEAST_SOLID)
            return 0;
    }
    for (int side = 0; side < 2; side++)
        solid = fmin(solid, inside[side] - 0.5 * solidity(dark, from[side], to[side], -1.8, 0));
    return solid;
}

/* How often dark turns to light, or back, along a line. */
static int turns_along(const struct plane *dark, struct point from, struct point to) {
    struct point way = difference(to, from);
    int steps = (int)length(way) + 1, turns = 0, before = dark_at(dark, from);
    for (int k = 1; k <= steps; k++) {
        int here = dark_at(dark, sum(from, scale_by(way, (double)k / steps)));
        turns += here != before, before = here;
    }
    return turns;
}

/* Whether three rows, from `from` to `to` and beside that at each module's width, turn about as often as modules do. */
static bool is_lively(const struct plane *dark, struct point from, struct point to, struct point inwards,
                      double module) {
    enum { ROWS = 3 };
    int turns = 0;
    for (int row = 1; row <= ROWS; row++) {
        struct point in = scale_by(inwards, row + 0.5);
        turns += turns_along(dark, sum(from, in), sum(to, in));
    }
    double usual = ROWS * 0.5 * length(difference(to, from)) / module;
    return turns >= LEAST_LIVELINESS * usual && turns <= MOST_LIVELINESS * usual;
}

/* Whether a ratio is at most this one, either way. */
static bool is_between(double ratio, double most) {
    return ratio < most && ratio > 1 / most;
}

/* Measures the modules of an elbow, and looks at those inside of its borders. */
static void look_inside(const struct plane *dark, struct elbow *elbow) {
    struct point along = difference(elbow->right, elbow->corner), up = difference(elbow->top, elbow->corner);
    double wide = length(along), high = length(up);
    elbow->is_long = fmin(wide, high) < LEAST_OF_SQUARE * fmax(wide, high);
    double widest = elbow->is_long ? WIDEST_OF_LONG : WIDEST_MODULE;
    elbow->across = module_width(dark, elbow->corner, elbow->top, scale_by(along, 1 / wide), widest * wide);
    elbow->upwards = module_width(dark, elbow->corner, elbow->right, scale_by(up, 1 / high), widest * high);
    double uneven = wide / elbow->across / (high / elbow->upwards), oblong = elbow->across / elbow->upwards;
    elbow->is_lively =
        (elbow->is_long ? is_between(oblong, MOST_OBLONG) : is_between(uneven, MOST_UNEVEN)) &&
        is_lively(dark, elbow->corner, elbow->right, scale_by(up, elbow->upwards / high), elbow->across) &&
        is_lively(dark, elbow->corner, elbow->top, scale_by(along, elbow->across / wide), elbow->upwards);
}

/* The elbow of a bottom border, which comes to the corner, and a left border, which leaves it; with a score of 0 if
 * there is none. */
static struct elbow elbow_of(const struct sought *in, const struct line *bottom, const struct line *left) {
    const struct plane *dark = in->dark;
    struct elbow none = {.score = 0},
                 elbow = {.top = left->to, .right = bottom->from, .is_joined = left->is_joined || bottom->is_joined};
    struct point along = difference(bottom->to, bottom->from), up = difference(left->to, left->from);
    double wide = length(along), high = length(up);
    if (wide < LEAST_RATIO * high || high < LEAST_RATIO * wide || cross(along, up) < LEAST_SINE * wide * high)
        return none;
    if (!intersection(bottom->from, along, left->from, up, &elbow.corner))
        return none;
    double gap = length(difference(bottom->to, elbow.corner)), other = length(difference(left->from, elbow.corner));
    if (gap > MOST_GAP + MOST_GAP_SHARE * wide || other > MOST_GAP + MOST_GAP_SHARE * high ||
        embrace_known(in->known, in->scale, elbow.corner, elbow.top, elbow.right))
        return none;
    double solid = solidity_of(dark, &elbow);
    if (solid < LEAST_SOLID)
        return none;
    double shorter = fmin(length(difference(elbow.right, elbow.corner)), length(difference(elbow.top, elbow.corner)));
    elbow.score = solid * (shorter + 0.25 * (wide + high)) / (1 + 0.01 * (gap + other));
    look_inside(dark, &elbow);
    return elbow.is_lively || !elbow.is_long ? elbow : none;
}

/* The order of those that are equally likely, so that it is always the same. */
static int by_places(const struct elbow *a, const struct elbow *b) {
    int corner = by_place(a->corner, b->corner), top = by_place(a->top, b->top);
    return corner != 0 ? corner : top != 0 ? top : by_place(a->right, b->right);
}

static int by_likelihood(const void *one, const void *other) {
    const struct elbow *a = one, *b = other;
    return a->is_lively != b->is_lively   ? b->is_lively - a->is_lively
           : a->is_joined != b->is_joined ? a->is_joined - b->is_joined
           : a->is_long != b->is_long     ? a->is_long - b->is_long
           : a->score < b->score          ? 1
           : a->score > b->score          ? -1
                                          : by_places(a, b);
}

static bool alike(const struct elbow *one, const struct elbow *other) {
    struct point across = difference(one->top, one->right);
    if (fabs(one->corner.y - other->corner.y) > 2 + 0.01 * (fabs(across.x) + fabs(across.y)))
        return false;
    double apart = 2 + 0.01 * length(across);
    return length(difference(one->corner, other->corner)) < apart && length(difference(one->top, other->top)) < apart &&
           length(difference(one->right, other->right)) < apart;
}

static int without_repetitions(struct elbow *elbows, int count) {
    int kept = 0;
    for (int k = 0; k < count; k++) {
        bool is_new = true;
        for (int j = 0; j < kept && is_new; j++)
            is_new = !alike(&elbows[j], &elbows[k]);
        if (is_new)
            elbows[kept++] = elbows[k];
    }
    return kept;
}

/* Keeps an elbow. Where there are too many, the worse half goes. False if there is no memory. */
static bool keep(struct elbows *elbows, struct elbow elbow) {
    if (elbows->count == MOST_ELBOWS) {
        qsort(elbows->items, (size_t)elbows->count, sizeof elbow, by_likelihood);
        elbows->count = without_repetitions(elbows->items, elbows->count);
        elbows->count = elbows->count == MOST_ELBOWS ? MOST_ELBOWS / 2 : elbows->count;
    }
    if (elbows->count == elbows->room) {
        int room = elbows->room > 0 ? 2 * elbows->room : 64;
        struct elbow *items = realloc(elbows->items, (size_t)room * sizeof *items);
        if (items == NULL)
            return false;
        elbows->items = items, elbows->room = room;
    }
    elbows->items[elbows->count++] = elbow;
    return true;
}

/* An end of a line. */
struct end {
    struct point at;
    int line;
};

static int by_row(const void *one, const void *other) {
    const struct end *a = one, *b = other;
    return a->at.y < b->at.y ? -1 : a->at.y > b->at.y ? 1 : a->line - b->line;
}

/* The ends of all lines, from the top: where they begin, or where they end. NULL if there is no memory. */
static struct end *ends_of(const struct lines *lines, bool is_first) {
    struct end *ends = malloc(((size_t)lines->count + 1) * sizeof *ends);
    for (int k = 0; ends != NULL && k < lines->count; k++)
        ends[k] = (struct end){is_first ? lines->items[k].from : lines->items[k].to, k};
    if (ends != NULL)
        qsort(ends, (size_t)lines->count, sizeof *ends, by_row);
    return ends;
}

/* The first end that isn't above a row. */
static int first_from(const struct end *ends, int count, double row) {
    int first = 0;
    while (count > 0) {
        int half = count / 2;
        if (ends[first + half].at.y < row)
            first += half + 1, count -= half + 1;
        else
            count = half;
    }
    return first;
}

/* Keeps the elbows of a line and each shorter one that has an end near one of its own: `is_bottom`: the line's last
 * end, and the others' first. */
static bool keep_elbows_at(const struct sought *in, int at, bool is_bottom, const struct end *ends,
                           struct elbows *out) {
    const struct lines *lines = in->lines;
    const struct line *line = &lines->items[at];
    struct point near = is_bottom ? line->to : line->from;
    double reach = 2 * MOST_GAP + 2 * MOST_GAP_SHARE * length(difference(line->to, line->from));
    const struct end *after = ends + lines->count;
    for (const struct end *end = ends + first_from(ends, lines->count, near.y - reach);
         end < after && end->at.y <= near.y + reach; end++) {
        if (fabs(end->at.x - near.x) > reach || end->line <= at)
            continue;
        const struct line *other = &lines->items[end->line];
        struct elbow elbow = is_bottom ? elbow_of(in, line, other) : elbow_of(in, other, line);
        if (elbow.score > 0 && !keep(out, elbow))
            return false;
    }
    return true;
}

void elbows_free(struct elbows *elbows) {
    free(elbows->items);
    *elbows = (struct elbows){0};
}

bool find_elbows(const struct sought *in, struct limit *limit, struct elbows *out) {
    const struct lines *lines = in->lines;
    struct end *firsts = ends_of(lines, true), *lasts = ends_of(lines, false);
    bool enough = firsts != NULL && lasts != NULL;
    out->count = out->whole = out->lively = out->tried = 0;
    for (int k = 0; enough && k < lines->count && !limit_reached(limit); k++) {
        int before = out->count;
        enough = keep_elbows_at(in, k, true, firsts, out) && keep_elbows_at(in, k, false, lasts, out);
        limit_spend(limit, WORK_OF_A_LINE + WORK_OF_AN_ELBOW * (int64_t)abs(out->count - before));
    }
    free(firsts);
    free(lasts);
    if (!enough || out->count == 0)
        return enough;
    qsort(out->items, (size_t)out->count, sizeof *out->items, by_likelihood);
    out->count = without_repetitions(out->items, out->count);
    for (int k = 0; k < out->count; k++) {
        out->lively += out->items[k].is_lively;
        out->whole += out->items[k].is_lively && !out->items[k].is_joined;
    }
    return true;
}
