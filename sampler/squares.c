#include "squares.h"

#include <math.h>

/* ---- Runs from a middle outwards */

/* The runs along a line through the middle, and from the middle outwards, in modules; behind the latter is another one.
 * Of a QR code these are all of its square (ISO/IEC 18004), of an Aztec code those within the outermost dark square
 * that all have (ISO/IEC 24778). */
struct pattern {
    int across_count, outwards_count;
    double across[7], outwards[4];
};
static const struct pattern OF_QR = {5, 3, {1, 1, 3, 1, 1}, {1.5, 1, 1}},
                            OF_AZTEC = {7, 4, {1, 1, 1, 1, 1, 1, 1}, {0.5, 1, 1, 1}};
enum { MOST_RUNS = 5, ARMS = 16, LEAST_ARMS = 13, DIRECTIONS = 64, MOST_TRIED = 4000 };
static const double TOLERANCE = 0.6, BEHIND = 0.6, FARTHEST = 5; /* of a run; of the run before; modules */
static const double HALF = 3.5, SPREAD = 0.818; /* modules outwards, of both patterns; 1 / 2 + 1 / pi */
static const double STEP = 0.5, LEAST_MODULE = 1.5, TURN = 6.28318530717958647693; /* pixels; a whole one */

/* The width of a module of runs, if they are to one another as they should be; else 0. */
static double module_of(const double *lengths, const double *modules, int count) {
    double length = 0, all = 0;
    for (int k = 0; k < count; k++)
        length += lengths[k], all += modules[k];
    double module = length / all;
    for (int k = 0; k < count; k++)
        if (fabs(lengths[k] - modules[k] * module) > TOLERANCE * modules[k] * module)
            return 0;
    return module;
}

/* How far it is from a middle to the end of the runs outwards, in pixels; 0 if they aren't there. */
static double reach_of(const struct plane *dark, struct square middle, double angle, const struct pattern *pattern) {
    double lengths[MOST_RUNS] = {0}, all = 0;
    struct point step = turn_by(point_at(STEP, 0), angle), at = middle.at;
    int run = 0, count = pattern->outwards_count;
    for (; run < count || lengths[run] < BEHIND * lengths[run - 1]; at = sum(at, step)) {
        run += dark_at(dark, at) == run % 2;
        if (run > count || lengths[run] > FARTHEST * middle.module)
            return 0;
        lengths[run] += STEP;
    }
    for (int k = 0; k < count; k++)
        all += lengths[k];
    return module_of(lengths, pattern->outwards, count) > 0 ? all - STEP / 2 : 0;
}

/* Whether what lies around a middle is a pattern, in nearly all directions. Its module is known then, however it is
 * turned: over all directions the inverse of a square's reach has a mean square of SPREAD times that of half a side. */
static bool is_middle(const struct plane *dark, struct square *middle, const struct pattern *pattern) {
    int missing = 0;
    double inverse = 0;
    for (int k = 0; k < ARMS && missing <= ARMS - LEAST_ARMS; k++) {
        double reach = reach_of(dark, *middle, TURN * ((5 * k) % ARMS + 0.5) / ARMS, pattern);
        missing += reach == 0;
        inverse += reach > 0 ? 1 / (reach * reach) : 0;
    }
    middle->module = sqrt(SPREAD * (ARMS - missing) / inverse) / HALF;
    return missing <= ARMS - LEAST_ARMS;
}

/* How many pixels are dark from a place on, along a way; at most so many. */
static double dark_along(const struct plane *dark, struct point at, struct point way, double most) {
    double length = 0;
    for (; length < most && dark_at(dark, at); length += STEP)
        at = sum(at, scale_by(way, STEP));
    return length;
}

/* Moves a place to the middle of what is dark around it, down and across, twice. False if that reaches so far. */
static bool centre(const struct plane *dark, double most, struct point *at) {
    static const struct point ways[] = {{0, 1}, {1, 0}, {0, 1}, {1, 0}};
    for (int k = 0; k < 4; k++) {
        double after = dark_along(dark, *at, ways[k], most);
        double before = after < most ? dark_along(dark, *at, scale_by(ways[k], -1), most) : most;
        if (before >= most)
            return false;
        *at = sum(*at, scale_by(ways[k], (after - before) / 2));
    }
    return true;
}

/* Whether the runs of a row that end with this one are those across a pattern; then where its middle is. */
static bool is_across(const struct plane *dark, const struct runs *runs, int last, int row,
                      const struct pattern *pattern, struct square *out) {
    double lengths[7];
    int count = pattern->across_count, middle = last - count / 2;
    for (int k = 0; k < count; k++)
        lengths[k] = length_of(runs, last - count + 1 + k);
    double module = module_of(lengths, pattern->across, count);
    *out = (struct square){{(begin_of(runs, middle) + runs->ends[middle]) / 2.0, row + 0.5}, module};
    return module >= LEAST_MODULE && centre(dark, length_of(runs, middle) + 2, &out->at);
}

static ecc200_sample_point as_corner(struct point at) {
    return (ecc200_sample_point){at.x, at.y};
}

/* ---- QR codes */

enum { SIDE = 7, LEAST_SIDE = 21, MOST_SIDE = 177 }; /* modules: of a square, of a code */
static const double LEAST_APART = 3;                 /* modules between middles */

static bool is_known(const struct squares *seen, const struct square *here) {
    for (int k = 0; k < seen->count; k++)
        if (length(difference(seen->items[k].at, here->at)) < LEAST_APART * here->module)
            return true;
    return false;
}

void look_for_squares(const struct plane *dark, const struct runs *runs, int row, struct squares *seen) {
    for (int last = 5; last < runs->count && seen->count < MOST_SQUARES && seen->tried < MOST_TRIED; last += 2) {
        struct square here;
        if (!is_across(dark, runs, last, row, &OF_QR, &here) || is_known(seen, &here))
            continue;
        seen->tried++;
        if (is_middle(dark, &here, &OF_QR))
            seen->items[seen->count++] = here;
    }
}

/* Whether two squares stand at a right angle beside one at a corner, seen at a slant of some degrees. */
static bool are_beside(const struct square *corner, const struct square *a, const struct square *b) {
    struct point along = difference(a->at, corner->at), down = difference(b->at, corner->at);
    double wide = length(along), high = length(down), module = (corner->module + a->module + b->module) / 3;
    double side = fmax(wide, high) / module + SIDE;
    return fabs(corner->module - module) < module / 3 && fabs(a->module - module) < module / 3 &&
           fabs(b->module - module) < module / 3 && fabs(dot(along, down)) < 0.4 * wide * high &&
           fmin(wide, high) > 0.6 * fmax(wide, high) && side > 0.8 * LEAST_SIDE && side < 1.15 * MOST_SIDE;
}

/* Whether modules are dark and light by turns between two squares, at the side on which the code lies, which is a way
 * of one module inwards. */
static bool has_turns(const struct plane *dark, const struct square *from, const struct square *to,
                      struct point inwards) {
    double lengths[MOST_SIDE + 1] = {0};
    struct point at = sum(from->at, scale_by(inwards, 3)), end = sum(to->at, scale_by(inwards, 3));
    double far = length(difference(end, at));
    struct point step = scale_by(difference(end, at), STEP / far);
    int run = 0;
    for (double gone = 0; gone < far; gone += STEP, at = sum(at, step)) {
        run += dark_at(dark, at) == run % 2;
        if (run > MOST_SIDE)
            return false;
        lengths[run] += STEP;
    }
    double mean = 0;
    for (int k = 1; k < run; k++)
        mean += lengths[k] / (run - 1);
    for (int k = 1; k < run; k++)
        if (fabs(lengths[k] - mean) > TOLERANCE * mean)
            return false;
    return run % 4 == 0 && run >= LEAST_SIDE - 2 * SIDE + 1;
}

/* The way of a module from one square to another. */
static struct point module_towards(const struct square *from, const struct square *to) {
    struct point way = difference(to->at, from->at);
    return scale_by(way, from->module / length(way));
}

/* The corners of a code of which three squares are known: half a square further out than their middles. */
static void corners_beside(const struct square *corner, const struct square *a, const struct square *b,
                           ecc200_sample_point out[4]) {
    struct point along = scale_by(module_towards(corner, a), SIDE / 2.0),
                 down = scale_by(module_towards(corner, b), SIDE / 2.0);
    struct point beyond = sum(a->at, difference(b->at, corner->at));
    out[0] = as_corner(difference(corner->at, sum(along, down)));
    out[1] = as_corner(sum(a->at, difference(along, down)));
    out[2] = as_corner(sum(beyond, sum(along, down)));
    out[3] = as_corner(sum(b->at, difference(down, along)));
}

bool make_qr_code(const struct plane *dark, const struct squares *seen, ecc200_sample_point corners[4]) {
    for (int k = 0; k < seen->count * seen->count * seen->count; k++) {
        const struct square *corner = &seen->items[k % seen->count], *a = &seen->items[k / seen->count % seen->count],
                            *b = &seen->items[k / seen->count / seen->count];
        if (a < b && a != corner && b != corner && are_beside(corner, a, b) &&
            has_turns(dark, corner, a, module_towards(corner, b)) &&
            has_turns(dark, corner, b, module_towards(corner, a))) {
            corners_beside(corner, a, b, corners);
            return true;
        }
    }
    return false;
}

/* ---- Aztec codes */

enum { COMPACT = 5, FULL = 7, LARGEST = 76 }; /* modules from the middle: of the marks, and of the last ones */
enum { MOST_WRONG = 2 };                      /* modules */

static int dark_module(const struct plane *dark, const struct homography *at, int x, int y) {
    return dark_at(dark, map_point(at, x, y));
}

/* How many modules are dark at so many from the middle, along rows or columns. */
static int dark_around(const struct plane *dark, const struct homography *at, int away) {
    int count = away == 0 ? dark_module(dark, at, 0, 0) : 0;
    for (int k = -away; k < away; k++)
        count += dark_module(dark, at, k, -away) + dark_module(dark, at, away, k) + dark_module(dark, at, -k, away) +
                 dark_module(dark, at, -away, -k);
    return count;
}

/* How many modules are wrong of the squares around the middle, which are dark and light by turns, `most` away. */
static int wrong_squares(const struct plane *dark, const struct homography *at, int most) {
    int wrong = 0;
    for (int away = 0; away <= most; away++) {
        int count = dark_around(dark, at, away), all = away == 0 ? 1 : 8 * away;
        wrong += away % 2 == 0 ? all - count : count;
    }
    return wrong;
}

/* Whether the corners so many modules away are marked by three, two, one and no dark modules, one way or the other
 * around. */
static bool has_marks(const struct plane *dark, const struct homography *at, int away) {
    static const int right[] = {-1, 1, 1, -1}, down[] = {-1, -1, 1, 1};
    int marks[4], first = 0;
    for (int k = 0; k < 4; k++) {
        int x = away * right[k], y = away * down[k];
        marks[k] = dark_module(dark, at, x, y) + dark_module(dark, at, x - right[k], y) +
                   dark_module(dark, at, x, y - down[k]);
        first = marks[k] > marks[first] ? k : first;
    }
    int next = marks[(first + 1) % 4], across = marks[(first + 2) % 4], last = marks[(first + 3) % 4];
    return marks[first] == 3 && across == 1 && next + last == 2 && next != last;
}

/* The sides of the square that the runs outwards make, if it is turned by an angle: how far each is away, and how much
 * the ends of runs differ from that in all. */
static double fit_sides(const double *reaches, double angle, double away[4]) {
    double sums[4] = {0}, squares = 0;
    int counts[4] = {0};
    for (int k = 0; k < DIRECTIONS; k++) {
        double beside = 4 * k / (double)DIRECTIONS - angle / (TURN / 4);
        int side = (int)floor(beside + 0.5);
        double here = reaches[k] * cos((beside - side) * TURN / 4);
        side = (side + 4) % 4, sums[side] += here, squares += here * here, counts[side] += here > 0;
    }
    for (int side = 0; side < 4; side++)
        away[side] = sums[side] / fmax(counts[side], 1), squares -= sums[side] * away[side];
    return squares;
}

/* How modules, counted from the middle, lie in the picture, by that square. */
static bool lay_modules(const struct plane *dark, struct square middle, struct homography *out) {
    static const struct point modules[] = {{3.5, 3.5}, {-3.5, 3.5}, {-3.5, -3.5}, {3.5, -3.5}};
    double reaches[DIRECTIONS], least = INFINITY, angle = 0, away[4];
    struct point corners[4];
    for (int k = 0; k < DIRECTIONS; k++)
        reaches[k] = reach_of(dark, middle, TURN * k / DIRECTIONS, &OF_AZTEC);
    for (int k = 0; k < DIRECTIONS / 2; k++) {
        double here = TURN / 2 * k / DIRECTIONS, off = fit_sides(reaches, here, away);
        angle = off < least ? here : angle, least = fmin(off, least);
    }
    fit_sides(reaches, angle, away);
    for (int k = 0; k < 4; k++)
        corners[k] = sum(middle.at, turn_by(point_at(away[k], away[(k + 1) % 4]), angle + TURN / 4 * k));
    return through(modules, corners, out);
}

/* Whether an Aztec code, compact or full, lies around a middle; then where: its modules end where they are light all
 * around. */
static bool is_aztec_code(const struct plane *dark, struct square middle, ecc200_sample_point corners[4]) {
    static const int right[] = {-1, 1, 1, -1}, down[] = {-1, -1, 1, 1};
    struct homography at;
    if (!is_middle(dark, &middle, &OF_AZTEC) || !lay_modules(dark, middle, &at) ||
        wrong_squares(dark, &at, COMPACT - 1) > MOST_WRONG)
        return false;
    bool is_compact = has_marks(dark, &at, COMPACT),
         is_full = wrong_squares(dark, &at, FULL - 1) <= MOST_WRONG && has_marks(dark, &at, FULL);
    if (!is_compact && !is_full)
        return false;
    int end = is_compact ? COMPACT : FULL;
    while (end < LARGEST && dark_around(dark, &at, end) > 0)
        end++;
    for (int k = 0; k < 4; k++)
        corners[k] = as_corner(map_point(&at, (end - 0.5) * right[k], (end - 0.5) * down[k]));
    return true;
}

bool crosses_aztec_code(const struct plane *dark, const struct runs *runs, int row, int *tried,
                        ecc200_sample_point corners[4]) {
    for (int last = 8; last < runs->count && *tried < MOST_TRIED; last += 2) {
        struct square middle;
        if (is_across(dark, runs, last, row, &OF_AZTEC, &middle)) {
            ++*tried;
            if (is_aztec_code(dark, middle, corners))
                return true;
        }
    }
    return false;
}
