/* How good the print of a symbol is, as its picture shows it. */
#include <math.h>
#include <stdlib.h>
#include <string.h>

#pragma GCC visibility push(default)
#include "ecc200_sample.h"
#pragma GCC visibility pop
#include "edges.h"
#include "grades.h"

enum { POINTS = 4, SIDES = 4, WHITE = 255 };
static const double FIRST = -0.27, APART = 0.18; /* modules: where the points of a module are */
static const double LEVELS[4] = {0.5, 0.4, 0.3, 0.2}; /* of modulation */

/* What is measured, and what of it. */
struct measure {
    const struct plane *picture;
    const ecc200_sample *symbol;
    ecc200_size size;
    ecc200_place_table places;
    struct mesh mesh;
    float of[MOST_MODULES];          /* the brightness of each module */
    float quiet[SIDES][MOST_SIDE];   /* and of the quiet zone beside each side */
    double least, most, middle;
    int weakest_codeword, weakest_module;
};

/* ---- Brightnesses */

/* The mean brightness of the middle of a module, or of a place as large. A symbol that is light on dark is turned. */
static double brightness_of(const struct measure *of, int column, int row, int module) {
    double total = 0;
    for (int k = 0; k < POINTS * POINTS; k++) {
        double x = column + 0.5 + FIRST + APART * (k % POINTS), y = row + 0.5 + FIRST + APART * (k / POINTS);
        total += brightness(of->picture, place_in(&of->mesh, x, y, module));
    }
    double mean = total / (POINTS * POINTS);
    return of->symbol->inverted ? WHITE - mean : mean;
}

/* How many modules a side has: above, on the right, below and on the left. */
static int length_of(const struct measure *of, int side) {
    return side % 2 == 0 ? of->mesh.extent.wide : of->mesh.extent.high;
}

/* The column and row of a module of a side, or of the place beside it in the quiet zone. */
static void place_of_side(const struct measure *of, int side, int k, bool is_quiet, int *column, int *row) {
    int beyond = is_quiet ? 1 : 0;
    *column = side % 2 == 0 ? k : side == 1 ? of->mesh.extent.wide - 1 + beyond : -beyond;
    *row = side % 2 == 1 ? k : side == 2 ? of->mesh.extent.high - 1 + beyond : -beyond;
}

static void note_extreme(struct measure *of, double here) {
    of->least = fmin(of->least, here), of->most = fmax(of->most, here);
}

/* Measures the brightness of each module and of the quiet zone, and what lies in the middle. */
static void look(struct measure *of) {
    struct extent extent = of->mesh.extent;
    of->least = WHITE, of->most = 0;
    for (int k = 0; k < extent.wide * extent.high; k++) {
        of->of[k] = (float)brightness_of(of, k % extent.wide, k / extent.wide, k);
        note_extreme(of, of->of[k]);
    }
    for (int side = 0; side < SIDES; side++)
        for (int k = 0; k < length_of(of, side); k++) {
            int column, row;
            place_of_side(of, side, k, true, &column, &row);
            of->quiet[side][k] = (float)brightness_of(of, column, row, -1);
            note_extreme(of, of->quiet[side][k]);
        }
    of->middle = (of->least + of->most) / 2;
}

/* ---- Codewords */

/* How far a brightness is from the middle, as a share of half the contrast. */
static double modulation_of(const struct measure *of, double here) {
    return of->most > of->least ? 2 * fabs(here - of->middle) / (of->most - of->least) : 0;
}

/* Finds the modulation of each codeword: that of its weakest module. */
static void find_modulations(struct measure *of, ecc200_sample_quality *out) {
    out->codewords = of->size.data_codewords + of->size.check_codewords;
    for (int k = 0; k < out->codewords; k++)
        out->modulations[k] = 1;
    out->modulation = 2;
    for (int k = 0; k < of->mesh.extent.wide * of->mesh.extent.high; k++) {
        const ecc200_place *place = &of->places.places[k];
        float here = (float)modulation_of(of, of->of[k]);
        if (place->kind != ECC200_BIT)
            continue;
        if (here < out->modulations[place->codeword])
            out->modulations[place->codeword] = here;
        if (here < out->modulation)
            out->modulation = here, of->weakest_codeword = place->codeword, of->weakest_module = k;
    }
    for (int k = 0; k < out->codewords; k++)
        for (int level = 0; level < 4; level++)
            out->readable[level] += out->modulations[k] >= LEVELS[level];
}

/* The block of a codeword, as it is dealt. */
static int block_of(const struct measure *of, int codeword) {
    int first = of->symbol->reading.dealing && codeword >= of->size.data_codewords ? of->size.data_codewords : 0;
    return (codeword - first) % of->size.blocks;
}

/* Finds what error correction each block leaves unused, and the grades of this and of the modulations: the lowest. */
static void grade_blocks(const struct measure *of, ecc200_sample_quality *out) {
    uint16_t with_grade[ECC200_MOST_BLOCKS][5] = {{0}};
    int checks = of->size.check_codewords / of->size.blocks;
    for (int k = 0; k < out->codewords; k++)
        with_grade[block_of(of, k)][grade_modulation(out->modulations[k])]++;
    out->blocks = of->size.blocks;
    out->modulation_grade = out->unused_grade = 4;
    for (int k = 0; k < out->blocks; k++) {
        bool is_known = of->symbol->unread != ECC200_SAMPLE_REFUSED;
        out->unused[k] = is_known ? (double)of->symbol->reading.left[k] / checks : 0;
        uint8_t unused = grade_unused(out->unused[k]), modulation = grade_block(with_grade[k], checks);
        out->unused_grade = unused < out->unused_grade ? unused : out->unused_grade;
        out->modulation_grade = modulation < out->modulation_grade ? modulation : out->modulation_grade;
    }
}

/* ---- Damage */

/* Whether a module of a side has the wrong colour, or nothing is known of it; or one of the quiet zone is dark, or lies
 * outside of the picture. */
static bool is_damaged(const struct measure *of, int side, int k, bool is_quiet) {
    int column, row;
    place_of_side(of, side, k, is_quiet, &column, &row);
    if (is_quiet)
        return of->quiet[side][k] < of->middle ||
               !shows(of->picture, place_in(&of->mesh, column + 0.5, row + 0.5, -1));
    int module = row * of->mesh.extent.wide + column;
    bool is_dark = of->places.places[module].kind == ECC200_BORDER_DARK;
    return of->symbol->doubtful[module] || (of->symbol->modules[module] != 0) != is_dark;
}

/* A run of damaged modules of a side. */
struct run {
    int side, first, count;
    bool is_quiet;
};

/* The share of a side that is damaged; a longer run than the longest so far is kept. */
static double damage_of(const struct measure *of, int side, bool is_quiet, struct run *longest) {
    int damaged = 0, run = 0;
    for (int k = 0; k < length_of(of, side); k++) {
        bool is_here = is_damaged(of, side, k, is_quiet);
        run = is_here ? run + 1 : 0;
        damaged += is_here;
        if (run > longest->count)
            *longest = (struct run){side, k - run + 1, run, is_quiet};
    }
    return (double)damaged / length_of(of, side);
}

/* Puts words, and then a number, behind a text that has room for them. (What C has for this would take a system.) */
static void say(char *text, const char *words, int number) {
    char digits[12], *digit = digits + sizeof digits - 1;
    strcat(text, words);
    for (*digit = 0; number > 0; number /= 10)
        *--digit = (char)('0' + number % 10);
    strcat(text, digit);
}

/* Whether each codeword has the best modulation, and none had to be corrected. */
static bool is_sound(const ecc200_sample_quality *out) {
    int block = 0;
    while (block < out->blocks && out->unused[block] >= 1)
        block++;
    return block == out->blocks && out->readable[0] == out->codewords;
}

/* Names the place of a run, or else of the weakest codeword, if one is weak. */
static void name_weakest(const struct measure *of, const struct run *run, ecc200_sample_quality *out) {
    static const char *const borders[SIDES] = {"the top border", "the right border", "the bottom border",
                                               "the left border"};
    static const char *const zones[SIDES] = {"the quiet zone above", "the quiet zone on the right",
                                             "the quiet zone below", "the quiet zone on the left"};
    bool is_across = run->side % 2 == 0;
    if (run->count == 0 && is_sound(out)) {
        strcat(out->weakest, "nothing is weak");
        return;
    }
    if (run->count == 0) {
        say(out->weakest, "codeword ", of->weakest_codeword + 1);
        say(out->weakest, ", at row ", of->weakest_module / of->mesh.extent.wide + 1);
        say(out->weakest, ", column ", of->weakest_module % of->mesh.extent.wide + 1);
        return;
    }
    strcat(out->weakest, (run->is_quiet ? zones : borders)[run->side]);
    if (run->count == 1) {
        say(out->weakest, is_across ? ", column " : ", row ", run->first + 1);
    } else {
        say(out->weakest, is_across ? ", columns " : ", rows ", run->first + 1);
        say(out->weakest, " to ", run->first + run->count);
    }
}

static void find_damage(const struct measure *of, ecc200_sample_quality *out) {
    struct run longest = {0};
    for (int is_quiet = 0; is_quiet < 2; is_quiet++)
        for (int side = 0; side < SIDES; side++)
            (is_quiet ? out->quiet : out->border)[side] = damage_of(of, side, is_quiet, &longest);
    name_weakest(of, &longest, out);
}

/* ---- Form */

static double distance(ecc200_sample_point one, ecc200_sample_point other) {
    return hypot(one.x - other.x, one.y - other.y);
}

static void find_form(const struct measure *of, ecc200_sample_quality *out) {
    const ecc200_sample_point *at = of->symbol->corners;
    const struct shift *shifts = of->mesh.shifts;
    double wide = of->mesh.extent.wide, high = of->mesh.extent.high,
           across = (distance(at[0], at[1]) + distance(at[3], at[2])) / 2 / wide * (1 + shifts[0].right / wide),
           down = (distance(at[0], at[3]) + distance(at[1], at[2])) / 2 / high * (1 + shifts[1].down / high);
    out->axial = across + down > 0 ? fabs(across - down) / ((across + down) / 2) : 0;
    out->grid = worst_beside(&of->mesh);
    out->growth[0] = 2 * shifts[0].growth, out->growth[1] = 2 * shifts[1].growth;
}

/* ---- All of it */

/* The row of the table for a symbol. False if there is none. */
static bool find_size(const ecc200_sample *symbol, ecc200_size *out) {
    ecc200_size_table table;
    ecc200_sizes(&table);
    for (int k = 0; k < ECC200_SIZE_COUNT; k++)
        if (table.sizes[k].rows == symbol->rows && table.sizes[k].columns == symbol->columns) {
            *out = table.sizes[k];
            return true;
        }
    return false;
}

/* Lays the even grid through the corners. False if these are none. */
static bool lay_even(const ecc200_sample *symbol, struct mesh *out) {
    struct extent extent = {symbol->columns, symbol->rows};
    struct point modules[4] = {{0, 0}, {extent.wide, 0}, {extent.wide, extent.high}, {0, extent.high}}, pixels[4];
    for (int k = 0; k < 4; k++)
        pixels[k] = point_at(symbol->corners[k].x, symbol->corners[k].y);
    *out = (struct mesh){.extent = extent};
    return through(modules, pixels, &out->even);
}

static bool measure_all(struct measure *of, ecc200_sample_quality *out) {
    if (!fit_mesh(of->picture, of->symbol->modules, of->symbol->inverted, &of->mesh))
        return false;
    look(of);
    out->contrast = (of->most - of->least) / WHITE;
    find_modulations(of, out);
    grade_blocks(of, out);
    find_form(of, out);
    find_damage(of, out);
    out->contrast_grade = grade_contrast(out->contrast);
    out->axial_grade = grade_axial(out->axial), out->grid_grade = grade_grid(out->grid);
    return true;
}

uint16_t ecc200_sample_measure(const uint8_t *luminance, size_t width, size_t height, size_t stride,
                               const ecc200_sample *symbol, ecc200_sample_quality *out) {
    struct plane picture = {.width = (int)width, .height = (int)height, .stride = stride, .pixels = luminance};
    memset(out, 0, sizeof *out);
    if (width < 1 || height < 1 || width > ECC200_SAMPLE_MOST_SIDE || height > ECC200_SAMPLE_MOST_SIDE ||
        stride < width)
        return ECC200_SAMPLE_PICTURE;
    struct measure *of = calloc(1, sizeof *of);
    uint16_t code = of == NULL ? ECC200_SAMPLE_NO_MEMORY : ECC200_SAMPLE_OK;
    if (code == ECC200_SAMPLE_OK) {
        of->picture = &picture, of->symbol = symbol;
        if (!find_size(symbol, &of->size) || !lay_even(symbol, &of->mesh))
            code = ECC200_SAMPLE_SYMBOL;
        else if (ecc200_places(symbol->rows, symbol->columns, &of->places) != ECC200_OK || !measure_all(of, out))
            code = ECC200_SAMPLE_NO_MEMORY;
    }
    free(of);
    return code;
}
