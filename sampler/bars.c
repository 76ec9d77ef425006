#include "bars.h"

#include <math.h>
#include <stddef.h>
#include <stdlib.h>
#include <string.h>

/* How a bar code begins and ends, from its first bar on, in modules; how many runs and modules a character has; with
 * which run characters begin; how many there are on each side of a middle, or 0 if it has none; how many modules are
 * light on both sides of it; and whether runs are narrow, 1, or two or three times as wide, 2. */
static const struct symbology {
    const char *name, *start, *stop;
    int runs, modules, first, half, quiet;
    bool is_of_two;
} SYMBOLOGIES[] = {{"a bar code", "211", "2331112", 6, 11, 0, 0, 5, false},         /* Code 128 */
                   {"a bar code", "111141", "1111411", 6, 9, 0, 0, 5, false},       /* Code 93 */
                   {"a bar code", "111", "111", 4, 7, 3, 6, 5, false},              /* EAN-13 and UPC-A */
                   {"a bar code", "111", "111", 4, 7, 3, 4, 5, false},              /* EAN-8 */
                   {"a bar code", "121121211", "121121211", 10, 13, 0, 0, 5, true}, /* Code 39 */
                   {"a bar code", "1111", "211", 10, 14, 4, 0, 5, true},            /* Interleaved 2 of 5 */
                   {"a PDF417 code", "81111113", "711311121", 8, 17, 0, 0, 1, false}};
static const char MIDDLE[] = "11111";
enum { LEAST_CHARACTERS = 3, LEAST_RUNS = 24, BARS_OF_TWO = 7, WIDEST = 8 }; /* five bars, two wide; modules */
enum { LEAST_LINES = 3, LEAST_HEIGHT = 12, MOST_APART = 16, MOST_ASIDE = 4 }; /* lines, modules, pixels, pixels */
static const double LEAST_SHARE = 0.1, MOST_UNEVEN = 1.25; /* of the length; one character to the next */

/* A bar code that may be there. */
struct reading {
    const struct runs *runs;
    const struct symbology *of;
    double module;
};

static int width_at(const struct reading *in, int run) {
    int width = (int)(length_of(in->runs, run) / in->module + 0.5);
    return in->of->is_of_two && width == 3 ? 2 : width;
}

static bool are_widths(const struct reading *in, int run, const char *widths) {
    if (run + (int)strlen(widths) > in->runs->count)
        return false;
    for (; *widths != 0; widths++, run++)
        if (width_at(in, run) != *widths - '0')
            return false;
    return true;
}

/* The width of a module at the beginning: of the narrow runs, or of the first character. */
static double first_module(const struct runs *runs, int run, const struct symbology *of) {
    int pixels = 0, count = 0, last = run + of->first + of->runs - 1;
    if (!of->is_of_two)
        return last < runs->count ? (double)(runs->ends[last] - begin_of(runs, run + of->first)) / of->modules : 0;
    for (int k = 0; of->start[k] != 0 && run + k < runs->count; k++)
        if (of->start[k] == '1')
            pixels += length_of(runs, run + k), count++;
    return (double)pixels / count;
}

/* Whether a character begins with a run. What its module is wide is known then. */
static bool is_character(struct reading *in, int run) {
    const struct symbology *of = in->of;
    int widths[2] = {0, 0};
    if (run + of->runs > in->runs->count)
        return false;
    double pixels = in->runs->ends[run + of->runs - 1] - begin_of(in->runs, run), before = in->module;
    in->module = of->is_of_two ? before : pixels / of->modules;
    for (int k = 0; k < of->runs; k++) {
        int width = width_at(in, run + k);
        widths[k % 2] += width >= 1 && width <= (of->is_of_two ? 2 : WIDEST) ? width : of->modules;
    }
    return in->module < MOST_UNEVEN * before && before < MOST_UNEVEN * in->module &&
           widths[0] + widths[1] == of->modules && (!of->is_of_two || widths[0] == BARS_OF_TWO);
}

/* Whether a run is light enough to stand beside a bar code, or ends with the picture. */
static bool is_quiet(const struct reading *in, int run) {
    return run == 0 || run >= in->runs->count - 1 || length_of(in->runs, run) >= in->of->quiet * in->module;
}

static bool ends_with(const struct reading *in, int run) {
    return are_widths(in, run, in->of->stop) && is_quiet(in, run + (int)strlen(in->of->stop));
}

/* How many runs a bar code has that begins with this one; 0 if there is none. */
static int count_runs(struct reading *in, int first) {
    const struct symbology *of = in->of;
    int run = first + of->first;
    in->module = first_module(in->runs, first, of);
    if (!(in->module > 0) || !is_quiet(in, first - 1) || !are_widths(in, first, of->start))
        return 0;
    for (int count = 0; count < in->runs->count; count++) {
        bool may_end = of->half > 0 ? count == 2 * of->half : count >= LEAST_CHARACTERS;
        if (may_end && ends_with(in, run))
            return run + (int)strlen(of->stop) - first;
        if (of->half > 0 && count == of->half && !are_widths(in, run, MIDDLE))
            return 0;
        run += of->half > 0 && count == of->half ? (int)strlen(MIDDLE) : 0;
        if ((of->half > 0 && may_end) || !is_character(in, run))
            return 0;
        run += of->runs;
    }
    return 0;
}

/* Takes note of a bar code on a line: perhaps it was seen on the lines before. */
static void note(struct bars *seen, struct bars here) {
    struct bars *least = seen;
    for (int k = 0; k < MOST_BARS; k++) {
        struct bars *other = &seen[k];
        if (other->name == here.name && here.first - other->last <= MOST_APART &&
            abs(here.from[0] - other->from[1]) <= MOST_ASIDE && abs(here.to[0] - other->to[1]) <= MOST_ASIDE) {
            other->last = here.last, other->from[1] = here.from[1], other->to[1] = here.to[1], other->lines++;
            return;
        }
        least = other->lines < least->lines ? other : least;
    }
    *least = here;
}

/* Whether some bar code may begin with a bar: with much light before it, or, wide as it is, little behind it. */
static bool may_begin(const struct runs *runs, int run) {
    int bar = length_of(runs, run);
    return run + LEAST_RUNS <= runs->count &&
           (run == 1 || length_of(runs, run - 1) >= 2 * bar || bar >= 5 * length_of(runs, run + 1));
}

/* Looks for bar codes that begin with a bar. */
static void look_from(const struct runs *runs, int run, int line, struct bars *seen) {
    for (size_t k = 0; k < sizeof SYMBOLOGIES / sizeof *SYMBOLOGIES; k++) {
        struct reading in = {runs, &SYMBOLOGIES[k], 0};
        int count = count_runs(&in, run), from = begin_of(runs, run);
        if (count > 0) {
            int to = runs->ends[run + count - 1];
            note(seen, (struct bars){in.of->name, line, line, 1, {from, from}, {to, to}, in.module});
        }
    }
}

void look_for_bars(const struct runs *runs, int line, struct bars seen[MOST_BARS]) {
    for (int run = 1; run < runs->count; run += 2)
        if (may_begin(runs, run))
            look_from(runs, run, line, seen);
}

static bool is_high(const struct bars *bars) {
    return bars->name != NULL && bars->lines >= LEAST_LINES &&
           bars->last - bars->first >= fmax(LEAST_HEIGHT * bars->module, LEAST_SHARE * (bars->to[0] - bars->from[0]));
}

const struct bars *highest_bars(const struct bars seen[MOST_BARS]) {
    const struct bars *most = NULL;
    for (int k = 0; k < MOST_BARS; k++)
        if (is_high(&seen[k]) && (most == NULL || seen[k].lines > most->lines))
            most = &seen[k];
    return most;
}
