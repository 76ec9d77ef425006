/* Tries what the sampler does with points far outside of a picture, as a projection may give them, how much work it
 * allows itself, what it takes as text, and how it fits straight pieces and joins them; for tests/sampler. */
#include "kind.h"
#include "limit.h"
#include "outline.h"
#include "plane.h"

#include <math.h>
#include <stdio.h>
#include <stdlib.h>

/* The place of a number among those that are tried: left of the picture, as what is none, in it, or to its right. */
static const struct {
    double at;
    int side;
} TRIED[] = {{-INFINITY, 0}, {-1e300, 0}, {-3e9, 0}, {-1, 0},    {-1e-300, 0}, {NAN, 0},
             {1.5, 1},       {3, 2},      {3e9, 2},  {1e300, 2}, {INFINITY, 2}};
enum { COUNT = sizeof TRIED / sizeof *TRIED };

/* Whether a plane of three by three pixels shows at a point what it should, in the middle one or not. */
static int is_right(const struct plane *plane, struct point at, int pixel, int is_inside) {
    return shows(plane, at) == is_inside && dark_at(plane, at) == (is_inside ? pixel : 0) &&
           grey_at(plane, at) == pixel && fabs(brightness(plane, at) - pixel) < 1e-9;
}

static int64_t work_for(int64_t megapixels, uint16_t effort) {
    return limit_from_now(ECC200_SAMPLE_ANY_TIME, effort, megapixels * 1000000).allowed;
}

/* A sheet, which takes long to open, is allowed less than a small picture; a photograph more, enough for all of it. */
static int is_work_right(void) {
    return work_for(8, 0) < work_for(1, 0) - 30000000 && work_for(8, 0) + 100000000 < work_for(12, 0) &&
           work_for(50, 0) >= 50 * 8000000 && work_for(12, 200) == 2 * work_for(12, 100) &&
           work_for(12, 0) == work_for(12, 100) && work_for(1, ECC200_SAMPLE_ANY_EFFORT) > INT64_MAX / 4;
}

/* Whether dark lines are taken as text if they are on most of a page in even light, on no part of it more than half. */
static int is_text_right(void) {
    enum { SIDE = 800, ALL = SIDE * SIDE, PAGES = 5 };
    /* dark rows, of twelve and of all; the level of the others, and by how much it falls; whether that is text */
    static const int pages[PAGES][5] = {
        {2, 800, 230, 0, 1}, {5, 800, 230, 0, 0}, {2, 350, 230, 0, 0}, {2, 800, 99, 0, 0}, {2, 800, 230, 90, 0}};
    static uint8_t pixels[ALL];
    const struct plane page = {.width = SIDE, .height = SIDE, .stride = SIDE, .pixels = pixels};
    int right = 0;
    for (const int *of = *pages; of < *pages + sizeof pages / sizeof *of; of += 5) {
        for (int at = 0; at < ALL; at++)
            pixels[at] = at / SIDE % 12 < of[0] && at / SIDE < of[1] ? 20 : (uint8_t)(of[2] - of[3] * at / ALL);
        right += is_text(&page) == of[4];
    }
    return right == PAGES;
}

/* Whether pieces in a row, so far from the upper left of the picture and among other ones, are joined to one line. */
static int are_joined(int right, int down) {
    enum { WIDE = 1400, HIGH = 300, STRIDE = WIDE + 2, PIECES = 4, PIECE = 40, APART = 12 };
    static uint8_t pixels[STRIDE * (HIGH + 2)];
    struct plane dark = {WIDE, HIGH, 1, STRIDE, pixels + STRIDE + 1, pixels};
    struct limit limit = limit_from_now(ECC200_SAMPLE_ANY_TIME, ECC200_SAMPLE_ANY_EFFORT, 1);
    struct lines lines = {0};
    int is_whole = 0;
    for (int k = 0; k < WIDE * HIGH; k++) {
        int x = k % WIDE - right, y = k / WIDE - down,
            is_in_row = y >= 0 && y < 6 && x >= 0 && x % (PIECE + APART) < PIECE && x < PIECES * (PIECE + APART),
            is_in_rest = k / WIDE % 30 < 5 && abs(y) > 60 && k % WIDE % 50 < 20;
        pixels[(k / WIDE + 1) * STRIDE + k % WIDE + 1] = is_in_row || is_in_rest;
    }
    if (find_lines(&dark, 10, 0, &limit, &lines))
        for (int k = 0; k < lines.count; k++)
            is_whole |= lines.items[k].is_joined && fabs(lines.items[k].from.y - down) < 8 &&
                        fabs(lines.items[k].to.x - lines.items[k].from.x) > PIECES * PIECE + APART;
    lines_free(&lines);
    return is_whole;
}

/* Whether the sides of a slanted bar are found as drawn, within a tenth of a pixel, and the bar stays the same. */
static int are_slanted(void) {
    enum { SIDE = 240, STRIDE = SIDE + 2, THICK = 20 };
    static uint8_t pixels[STRIDE * STRIDE];
    struct plane dark = {SIDE, SIDE, 1, STRIDE, pixels + STRIDE + 1, pixels};
    struct limit limit = limit_from_now(ECC200_SAMPLE_ANY_TIME, ECC200_SAMPLE_ANY_EFFORT, 1);
    struct lines lines = {0};
    const double slope = 0.23;
    int right = 0;
    for (int k = 0; k < SIDE * SIDE; k++) {
        double x = k % SIDE + 0.5, y = k / SIDE + 0.5 - 90 - slope * x;
        pixels[(k / SIDE + 1) * STRIDE + k % SIDE + 1] = x > 20 && x < 220 && y > 0 && y < THICK;
    }
    if (find_lines(&dark, 100, 0, &limit, &lines))
        for (const struct line *line = lines.items; line < lines.items + (lines.count < 2 ? lines.count : 2); line++) {
            double upper = line->from.y - 90 - slope * line->from.x, lower = line->to.y - 90 - slope * line->to.x;
            right += fabs(upper - lower) < 0.1 && fabs(fabs(upper - THICK / 2.0) - THICK / 2.0) < 0.3;
        }
    lines_free(&lines);
    return right == 2 && pixels[101 * STRIDE + 21] == 1;
}

int main(void) {
    static const uint8_t pixels[] = {11, 12, 13, 14, 15, 16, 17, 18, 19};
    const struct plane plain = {.width = 3, .height = 3, .stride = 3, .pixels = pixels};
    const struct plane framed = {.width = 1, .height = 1, .frame = 1, .stride = 3, .pixels = pixels + 4};
    for (int k = 0; k < COUNT; k++)
        for (int j = 0; j < COUNT; j++) {
            struct point at = point_at(TRIED[k].at, TRIED[j].at), in_frame = point_at(at.x - 1, at.y - 1);
            int is_inside = TRIED[k].side == 1 && TRIED[j].side == 1, pixel = pixels[3 * TRIED[j].side + TRIED[k].side];
            if (!is_right(&plain, at, pixel, is_inside) || !is_right(&framed, in_frame, pixel, is_inside))
                return printf("%g, %g\n", at.x, at.y) > 0;
        }
    int is_joined = are_joined(3, 4) && are_joined(1100, 250) && are_joined(600, 150);
    int is_right = is_work_right() && is_text_right();
    printf("%s%s%s", is_right ? "" : "work, text", is_joined ? "" : "joined", are_slanted() ? "" : "slanted");
    return !is_right || !is_joined || !are_slanted();
}
