#include "sampling.h"

#include <math.h>
#include <string.h>

enum { POINTS = 4 };
static const double FIRST = -0.27, APART = 0.18; /* modules: where the points of a module are */
static const double LEAST_AROUND = 0.15; /* of the contrast of the symbol, below which a window shows one colour only */
static const double LEAST_CONTRAST = 3;  /* of dark and light modules, in levels */
/* How much of the difference to the four neighbours is added. */
static const double ADDED[SHARPENINGS] = {[SLIGHTLY] = 0.12, [CLEARLY] = 0.2, [STRONGLY] = 0.3};

void sample_modules(const struct plane *plane, const struct layout *layout, const struct lie *lie,
                    struct brightnesses *out) {
    int wide = layout->extent.wide, high = layout->extent.high, across = wide / lie->region.wide;
    out->extent = layout->extent;
    for (int row = 0; row < high; row++)
        for (int column = 0; column < wide; column++) {
            const struct warp *warp = &lie->warps[row / lie->region.high * across + column / lie->region.wide];
            double total = 0, least = 255, next = 255;
            for (int k = 0; k < POINTS * POINTS; k++) {
                int x = k % POINTS, y = k / POINTS;
                struct point at = warp_point(warp, column + 0.5 + FIRST + APART * x, row + 0.5 + FIRST + APART * y);
                double here = brightness(plane, at);
                total += here;
                next = here < least ? least : here < next ? here : next, least = here < least ? here : least;
            }
            out->of[row * wide + column] = (float)(total / (POINTS * POINTS));
            out->darkest[row * wide + column] = (float)((least + next) / 2);
        }
}

void take_darkest(struct brightnesses *brightnesses) {
    size_t count = (size_t)brightnesses->extent.wide * (size_t)brightnesses->extent.high;
    memcpy(brightnesses->of, brightnesses->darkest, count * sizeof *brightnesses->of);
}

/* The place of a row or column in the middle of a module, from -0.5 to 0.5. */
static double place_of(int count, int k) {
    return (k + 0.5) / count - 0.5;
}

static void find_places(int count, double *places) {
    for (int k = 0; k < count; k++)
        places[k] = place_of(count, k);
}

static double level_at(const struct level *level, double x, double y) {
    return level->a + level->b * x + level->c * y;
}

/* What is summed up to fit a level: of the modules, of their products with x and y, and of these with the brightness.
 */
struct sums {
    double n, x, y, xx, xy, yy, v, xv, yv;
};

static void add_module(struct sums *sums, double x, double y, double v) {
    sums->n++, sums->x += x, sums->y += y, sums->xx += x * x, sums->xy += x * y, sums->yy += y * y;
    sums->v += v, sums->xv += x * v, sums->yv += y * v;
}

/* Sums up the modules of both classes, without those that are farther than `most` from the levels before. */
static void sum_up(const float *of, struct extent extent, const uint8_t *class, const struct levels *before,
                   double most, struct sums out[2]) {
    double places[MOST_SIDE];
    find_places(extent.wide, places);
    for (int row = 0; row < extent.high; row++) {
        double y = place_of(extent.high, row);
        for (int column = 0; column < extent.wide; column++, of++, class++) {
            if (*class == UNKNOWN)
                continue;
            double x = places[column];
            const struct level *level = before != NULL ? &before->of[*class] : NULL;
            if (level == NULL || fabs(*of - level->a - level->b * x - level->c * y) <= most)
                add_module(&out[*class], x, y, *of);
        }
    }
}

static bool level_from(const struct sums *sums, struct level *out) {
    double stiff = 0.2, matrix[9] = {sums->n, sums->x,  sums->y, sums->x,         sums->xx + stiff,
                                     sums->xy, sums->y, sums->xy, sums->yy + stiff};
    double values[3] = {sums->v, sums->xv, sums->yv};
    if (sums->n < 4 || !solve(matrix, values, 3))
        return false;
    *out = (struct level){values[0], values[1], values[2]};
    return true;
}

static double contrast_of(const struct levels *levels) {
    return levels->of[LIGHT].a - levels->of[DARK].a;
}

/* Fits levels to the modules of both classes. False if these show no contrast. */
static bool fit_levels(const float *of, struct extent extent, const uint8_t *class, struct levels *out) {
    struct sums first[2] = {{0}}, again[2] = {{0}};
    sum_up(of, extent, class, NULL, 0, first);
    if (!level_from(&first[LIGHT], &out->of[LIGHT]) || !level_from(&first[DARK], &out->of[DARK]) ||
        contrast_of(out) < LEAST_CONTRAST)
        return false;
    sum_up(of, extent, class, out, 0.4 * contrast_of(out), again);
    for (int colour = LIGHT; colour <= DARK; colour++)
        level_from(&again[colour], &out->of[colour]);
    return contrast_of(out) >= LEAST_CONTRAST;
}

/* The brightness of the place (x, y), which may lie one module outside, where the quiet zone is. */
static float around(const struct brightnesses *from, const struct levels *levels, int x, int y) {
    int wide = from->extent.wide, high = from->extent.high;
    if (x >= 0 && y >= 0 && x < wide && y < high)
        return from->of[y * wide + x];
    int column = x < 0 ? 0 : x >= wide ? wide - 1 : x, row = y < 0 ? 0 : y >= high ? high - 1 : y;
    return (float)level_at(&levels->of[LIGHT], place_of(wide, column), place_of(high, row));
}

static void sharpen(const struct brightnesses *from, const struct levels *levels, double by, float *out) {
    int wide = from->extent.wide;
    for (int y = 0; y < from->extent.high; y++)
        for (int x = 0; x < wide; x++) {
            float beside = around(from, levels, x - 1, y) + around(from, levels, x + 1, y);
            float sum = beside + around(from, levels, x, y - 1) + around(from, levels, x, y + 1);
            float here = from->of[y * wide + x];
            out[y * wide + x] = here + (float)by * (4 * here - sum);
        }
}

/* Whether a module that is so bright is dark: nearer to that level than to the light one, but for an offset. */
static bool is_dark_at(const struct levels *levels, double offset, float here, double x, double y) {
    double light = level_at(&levels->of[LIGHT], x, y), dark = level_at(&levels->of[DARK], x, y);
    return here < dark + (0.5 + offset) * (light - dark);
}

/* ---- What rules have in common, which is found when it is first asked for */

void begin_telling(const struct brightnesses *from, const struct layout *layout, const uint8_t *colour,
                   struct telling *out) {
    out->from = from, out->layout = layout, out->colour = colour;
    find_places(layout->extent.wide, out->across);
    find_places(layout->extent.high, out->down);
    for (int way = 0; way < SHARPENINGS; way++)
        out->ways[way].by_border.state = out->ways[way].by_all.state = NOT_TRIED;
}

static const struct levels *levels_of(struct telling *telling, enum sharpening way, bool is_by_all);

static bool fit_by_border(struct telling *telling, enum sharpening way) {
    const struct brightnesses *from = telling->from;
    struct sharpened *to = &telling->ways[way];
    const struct levels *seen = way == AS_SEEN ? NULL : levels_of(telling, AS_SEEN, false);
    if (way == AS_SEEN)
        memcpy(to->of, from->of, (size_t)from->extent.wide * (size_t)from->extent.high * sizeof *to->of);
    else if (seen != NULL)
        sharpen(from, seen, ADDED[way], to->of);
    return (way == AS_SEEN || seen != NULL) &&
           fit_levels(to->of, from->extent, telling->colour, &to->by_border.levels);
}

static bool fit_by_all(struct telling *telling, enum sharpening way) {
    uint8_t class[MOST_MODULES];
    struct extent extent = telling->from->extent;
    struct sharpened *to = &telling->ways[way];
    const struct levels *levels = levels_of(telling, way, false);
    for (int round = 0; round < 2 && levels != NULL; round++) {
        for (int row = 0, k = 0; row < extent.high; row++)
            for (int column = 0; column < extent.wide; column++, k++)
                class[k] = is_dark_at(levels, 0, to->of[k], telling->across[column], telling->down[row]);
        levels = fit_levels(to->of, extent, class, &to->by_all.levels) ? &to->by_all.levels : NULL;
    }
    return levels != NULL;
}

/* The levels of dark and light modules, sharpened in a way: those of the border, or of all. NULL if there are none. */
static const struct levels *levels_of(struct telling *telling, enum sharpening way, bool is_by_all) {
    struct fitted *fitted = is_by_all ? &telling->ways[way].by_all : &telling->ways[way].by_border;
    if (fitted->state == NOT_TRIED)
        fitted->state = (is_by_all ? fit_by_all : fit_by_border)(telling, way) ? THERE : MISSING;
    return fitted->state == THERE ? &fitted->levels : NULL;
}

/* A rule, and what it tells a module by. */
struct teller {
    struct rule rule;
    const float *of;
    struct extent extent;
    const struct levels *levels;
    double contrast;
    const double *across, *down; /* the places of columns and rows */
    struct division *divisions; /* of the squares, which are found when they are first asked for */
};

/* ---- Where the light changes over the symbol, by what is around each module */

/* Modules of a line, from one to another. */
struct stretch {
    int first, last;
};

/* 2 * `around` + 1 of them, or as many as there are, with a module in the middle, but moved into the line. */
static struct stretch stretch_around(int module, int count, int around) {
    around = 2 * around < count ? around : (count - 1) / 2;
    int first = module < around ? 0 : module + around < count ? module - around : count - 1 - 2 * around;
    return (struct stretch){first, first + 2 * around};
}

/* Whether a module is nearer to the darkest than to the lightest one around it; if these don't differ by a share of the
 * contrast, as it is. */
static bool is_dark_around(const struct teller *by, int column, int row, bool is_dark) {
    int wide = by->extent.wide;
    struct stretch across = stretch_around(column, wide, by->rule.around),
                   down = stretch_around(row, by->extent.high, by->rule.around);
    float here = by->of[row * wide + column], least = here, most = here;
    for (int y = down.first; y <= down.last; y++)
        for (int x = across.first; x <= across.last; x++) {
            float beside = by->of[y * wide + x];
            least = beside < least ? beside : least, most = beside > most ? beside : most;
        }
    return most - least >= LEAST_AROUND * by->contrast ? 2 * here < least + most : is_dark;
}

/* ---- Where the light changes suddenly, by the squares that it leaves clear */

enum { SQUARE = 5, MODULES = SQUARE * SQUARE };

/* Puts a number among those before it, which are sorted. */
static void insert(float *sorted, int count, float here) {
    for (; count > 0 && sorted[count - 1] > here; count--)
        sorted[count] = sorted[count - 1];
    sorted[count] = here;
}

static struct division division_of(const float *of, int wide) {
    struct division best = {0};
    float sorted[MODULES], total = 0, squares = 0, below = 0;
    for (int k = 0; k < MODULES; k++) {
        float here = of[k / SQUARE * wide + k % SQUARE];
        insert(sorted, k, here);
        total += here, squares += here * here;
    }
    float variance = squares - total * total / MODULES;
    for (int k = 1; k < MODULES; k++) {
        below += sorted[k - 1];
        float least = below / (float)k, most = (total - below) / (float)(MODULES - k), contrast = most - least;
        float share = variance > 0 ? contrast * contrast * (float)(k * (MODULES - k)) / (MODULES * variance) : 0;
        if (share > best.share)
            best = (struct division){(least + most) / 2, share, contrast};
    }
    return best;
}

/* The first of `squares` squares in a line that a module lies in, or the last. */
static int square_of(int module, bool is_last, int squares) {
    int at = is_last ? module : module - SQUARE + 1;
    return at < 0 ? 0 : at < squares ? at : squares - 1;
}

static struct division *division_at(const struct teller *by, int x, int y) {
    struct division *here = &by->divisions[y * by->extent.wide + x];
    if (here->share < 0)
        *here = division_of(by->of + y * by->extent.wide + x, by->extent.wide);
    return here;
}

/* Whether a module is dark by that of the squares around it whose brightnesses fall most clearly into two; if none
 * does, as it is. */
static bool is_dark_cleanly(const struct teller *by, int column, int row, bool is_dark) {
    struct division best = {0};
    int across = by->extent.wide - SQUARE + 1, down = by->extent.high - SQUARE + 1;
    for (int y = square_of(row, false, down); y <= square_of(row, true, down); y++)
        for (int x = square_of(column, false, across); x <= square_of(column, true, across); x++) {
            const struct division *here = division_at(by, x, y);
            if (here->share > best.share && here->contrast >= LEAST_AROUND * by->contrast)
                best = *here;
        }
    return best.share > 0 ? by->of[row * by->extent.wide + column] < best.middle : is_dark;
}

/* ---- By a rule */

static bool is_dark(const struct teller *by, int column, int row) {
    float here = by->of[row * by->extent.wide + column];
    bool is_dark = is_dark_at(by->levels, by->rule.offset, here, by->across[column], by->down[row]);
    return by->rule.is_cleanest  ? is_dark_cleanly(by, column, row, is_dark)
           : by->rule.around > 0 ? is_dark_around(by, column, row, is_dark)
                                 : is_dark;
}

/* Whether at most so many modules of the border have the wrong colour. */
static bool shows_border(const struct teller *by, const struct telling *telling, int most) {
    int wrong = 0;
    for (int k = 0; k < telling->layout->border_count && wrong <= most; k++) {
        int module = telling->layout->border[k], colour = telling->colour[module];
        wrong += colour != UNKNOWN &&
                 is_dark(by, module % by->extent.wide, module / by->extent.wide) != (colour == DARK);
    }
    return wrong <= most;
}

enum told tell_apart(struct telling *telling, struct rule rule, int most, uint8_t *modules) {
    const struct levels *levels = levels_of(telling, rule.sharpening, rule.is_by_all);
    struct extent extent = telling->from->extent;
    if (levels == NULL)
        return NO_CONTRAST;
    const float *of = telling->ways[rule.sharpening].of;
    struct teller by = {rule, of, extent, levels, contrast_of(levels), telling->across, telling->down,
                        telling->divisions};
    for (int k = 0; k < extent.wide * extent.high && rule.is_cleanest; k++)
        telling->divisions[k].share = -1;
    if (!shows_border(&by, telling, most))
        return NO_BORDER;
    for (int row = 0; row < extent.high; row++)
        for (int column = 0; column < extent.wide; column++)
            *modules++ = is_dark(&by, column, row);
    return TOLD_APART;
}
