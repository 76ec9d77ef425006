/* Tries whether the sampler tells readings apart by what they say, and looks for the margin at each block; what it does
 * where rules for known damage disagree; and which lattices grow; for tests/sampler. */
#define ecc200_read read_anything /* for the file that is tried: defined below */
#include "judge.c"
#undef ecc200_read

#include "lattice.h"

#include <math.h>
#include <stdio.h>

static ecc200_reading one, other;

/* Makes both readings the same: part 2 of 3, with three items and two marks. */
static void reset(void) {
    const ecc200_head head = {ECC200_PART, 2, 3, {4, 5}};
    const ecc200_mark marks[] = {{26, 0}, {3, 2}};
    one = (ecc200_reading){.item_count = 3, .mark_count = 2, .head = head, .items = {'A', ECC200_FNC1, 'B'}};
    memcpy(one.marks, marks, sizeof marks);
    other = one;
}

/* Prints what is wrong, if anything is: `is_same`: whether the readings should count as the same. */
static int check(const char *what, int is_same) {
    int is_right = says_the_same(&one, &other) == is_same && says_the_same(&other, &one) == is_same;
    if (!is_right)
        puts(what);
    reset();
    return !is_right;
}

/* ---- Margins */

/* Whether a reading of 52 by 52 with these checks and faults of the border is trusted with a margin as it should. */
static int check_margin(int first, int second, int faults, int margin, int is_trusted, int is_trusted_with_doubt) {
    static ecc200_sample trial;
    trial = (ecc200_sample){.rows = 52, .columns = 52};
    trial.reading.block_count = 2, trial.reading.border_faults = (uint16_t)faults;
    trial.reading.left[0] = (uint8_t)first, trial.reading.left[1] = (uint8_t)second;
    int is_right =
        leaves_margin(&trial, margin) == is_trusted && leaves_checks(&trial, margin) == is_trusted_with_doubt;
    if (!is_right)
        printf("%d and %d checks are left, %d faults, margin %d\n", first, second, faults, margin);
    return !is_right;
}

static int check_margins(void) {
    return check_margin(42, 0, 0, 1, 0, 0) + check_margin(0, 42, 0, 1, 0, 0) + check_margin(2, 2, 0, 1, 1, 1) +
           check_margin(42, 0, 0, 0, 1, 0) + check_margin(42, 3, 0, 2, 0, 0) + check_margin(42, 0, 40, 0, 0, 0);
}

/* ---- Readings by known damage */

static int readings, has_one_meaning;

/* In the place of the reader: takes any grid, for the same message each time, or each time for another. */
uint16_t read_anything(const uint8_t *modules, size_t module_count, const uint8_t *doubtful, size_t doubtful_count,
                       const ecc200_scan *scan, ecc200_reading *out) {
    (void)modules, (void)module_count, (void)doubtful, (void)doubtful_count, (void)scan;
    *out = (ecc200_reading){.item_count = 1, .block_count = 1, .left = {9}};
    out->items[0] = (uint16_t)('A' + (has_one_meaning ? 0 : readings));
    readings++;
    return ECC200_OK;
}

/* A symbol of ten by ten modules of four pixels whose right column the picture doesn't show: whether it is kept. */
static int is_kept(int has_one_meaning_now) {
    enum { SIDE = 10, SCALE = 4, QUIET = 2, WIDE = (QUIET + SIDE - 1) * SCALE, HIGH = (SIDE + 2 * QUIET) * SCALE };
    static struct judge judge;
    static ecc200_sample trial, best;
    static struct layouts layouts;
    static uint8_t pixels[HIGH * WIDE];
    struct limit limit = limit_from_now(ECC200_SAMPLE_ANY_TIME, ECC200_SAMPLE_ANY_EFFORT, WIDE * HIGH);
    struct plane plane = {.width = WIDE, .height = HIGH, .stride = WIDE, .pixels = pixels};
    struct extent extent = {SIDE, SIDE};
    struct warp warp = {.to_picture = {{{SCALE, 0, QUIET * SCALE}, {0, SCALE, QUIET * SCALE}, {0, 0, 1}}}};
    struct lie lie = {.region = extent, .warps = {warp}};
    struct brightnesses brightnesses;
    list_shapes(&layouts);
    const struct layout *layout = layout_of(&layouts, extent);
    for (int k = 0; k < HIGH * WIDE; k++) {
        int row = k / WIDE / SCALE - QUIET, column = k % WIDE / SCALE - QUIET, colour = colour_at(layout, column, row);
        int is_dark = colour == UNKNOWN ? (row * 7 + column * 11 + row * column) % 5 < 2 : colour == DARK;
        pixels[k] = is_dark ? 20 : 230;
    }
    has_one_meaning = has_one_meaning_now, readings = 0;
    judge.picture = judge.smooth = &plane, judge.layouts = &layouts, judge.limit = &limit, judge.trial = &trial;
    struct trials trials = {&judge, layout, &warp, &best, -1, 1, false};
    sample_modules(&plane, layout, &lie, &brightnesses);
    try_known_damage(&trials, &brightnesses);
    layouts_free(&layouts);
    return trials.best_cost >= 0 && readings > 1;
}

/* Whether a square where all is flat, so that no border turns, stays as it is. */
static int stays_as_it_is(void) {
    static const uint8_t pixels[1600];
    static struct layouts layouts;
    struct plane flat = {.width = 40, .height = 40, .stride = 40, .pixels = pixels};
    struct smeared smeared = {.at.extent = {12, 12}, .warp.to_picture = {{{3, 0, 2}, {0, 3, 2}, {0, 0, 1}}}};
    list_shapes(&layouts);
    size_up(&flat, &layouts, &smeared);
    return smeared.at.extent.wide == 12 && smeared.at.extent.high == 12 && smeared.turning <= 0 &&
           fabs(warp_point(&smeared.warp, 12, 12).x - 38) < 1e-9;
}

/* Whether a lattice of modules as wide as this, around the middle of modules that are six pixels wide, grows. */
static int grows(double module) {
    enum { MODULE = 6, SIDE = 40 * MODULE };
    static uint8_t pixels[SIDE * SIDE];
    static struct layout room;
    struct plane picture = {.width = SIDE, .height = SIDE, .stride = SIDE, .pixels = pixels}, grey;
    struct limit limit = limit_from_now(ECC200_SAMPLE_ANY_TIME, ECC200_SAMPLE_ANY_EFFORT, 1);
    const struct ground ground = {&grey, &(struct known){.is_empty = true}, 1};
    struct homography to_picture = {{{module, 0, SIDE / 2}, {0, module, SIDE / 2}, {0, 0, 1}}};
    struct lattice lattice;
    for (int k = 0; k < SIDE * SIDE; k++) {
        int row = k / SIDE / MODULE, column = k % SIDE / MODULE;
        pixels[k] = (row * 7 + column * 11 + row * column) % 5 < 2 ? 20 : 230;
    }
    int is_begun = plane_smooth(&picture, &limit, &grey) && begin_lattice(&ground, &to_picture, &room, &lattice);
    if (is_begun)
        grow_lattice(&ground, &room, &limit, &lattice);
    plane_free(&grey);
    return is_begun && lattice.part.last_x - lattice.part.first_x > 30;
}

int main(void) {
    int wrong = check_margins(), is_known_right = is_kept(1) && !is_kept(0), is_flat_right = stays_as_it_is(),
        is_grown_right = grows(6) && grows(5.7) && grows(6.3) && !grows(5.35) && !grows(5.4);
    printf("%s%s%s", is_known_right ? "" : "known damage\n", is_flat_right ? "" : "a flat square\n",
           is_grown_right ? "" : "lattices\n");
    wrong += !is_known_right + !is_flat_right + !is_grown_right;
    reset();
    wrong += check("nothing", 1);
    other.border_faults = 3, other.corrected[0] = 2, other.items[3] = 9, other.marks[2].number = 9;
    wrong += check("what isn't said", 1);
    other.items[2] = 'C', wrong += check("an item", 0);
    other.item_count = 2, wrong += check("the number of items", 0);
    other.marks[1].number = 4, wrong += check("a mark's number", 0);
    other.marks[1].place = 3, wrong += check("a mark's place", 0);
    other.mark_count = 1, wrong += check("the number of marks", 0);
    other.head.part = 1, wrong += check("the part", 0);
    other.head.file[1] = 6, wrong += check("the file", 0);
    other.head = (ecc200_head){0}, wrong += check("the head", 0);
    return wrong;
}
