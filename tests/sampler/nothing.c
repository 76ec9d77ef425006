/* Small pictures with nothing to be read, made by number and searched: `nothing FIRST COUNT [EFFORT [any]]` prints
 * whatever is read in them or taken for another code, and how many pictures there were, and returns 1 if it printed any
 * such. Every other one shows a symbol, of any size, that is damaged until the reader refuses it, whatever its border;
 * a reading of what it said doesn't count. One in sixteen, or with a fourth word all, have any form, and may be no
 * pictures. */
#include <ecc200_sample.h>
#include <math.h>
#include <stdio.h>
#include <stdlib.h>
#include <string.h>

enum { MOST_MODULES_SHOWN = 144, MOST_PIXELS = 400 * 400, SMALLEST = 14 };
enum kind { CHANCE, CHECKS, BARS, RINGS, STROKES, WAVES, BORDER, KINDS };

static uint64_t state;

static uint32_t next(void) {
    state ^= state << 13, state ^= state >> 7, state ^= state << 17;
    return (uint32_t)(state >> 32);
}

static int below(int count) { return (int)(next() % (uint32_t)count); }

static double between(double least, double most) { return least + (most - least) * next() / 4294967296.0; }

/* What is drawn: a grid of modules, or a pattern without an end, of one contrast. */
struct drawing {
    enum kind kind;
    int rows, columns;
    uint8_t dark[MOST_MODULES_SHOWN * MOST_MODULES_SHOWN];
    double period;
};

static void draw_module(struct drawing *drawing, int row, int column, int is_dark) {
    drawing->dark[row * MOST_MODULES_SHOWN + column] = (uint8_t)is_dark;
}

/* The squares within squares of a QR code, at three corners. */
static int ring_at(const struct drawing *drawing, int row, int column) {
    int y = row < 7 ? row : row - drawing->rows + 7, x = column < 7 ? column : column - drawing->columns + 7;
    if (y < 0 || x < 0 || (row > 6 && column > 6))
        return -1;
    int away = (x < 6 - x ? x : 6 - x) < (y < 6 - y ? y : 6 - y) ? (x < 6 - x ? x : 6 - x) : (y < 6 - y ? y : 6 - y);
    return away != 1;
}

static int module_of(const struct drawing *drawing, int row, int column, int chance) {
    int last_row = drawing->rows - 1, last_column = drawing->columns - 1, ring;
    switch (drawing->kind) {
    case CHECKS: return (row + column) % 2;
    case BARS: return row == 0 ? chance : drawing->dark[column];
    case RINGS: ring = ring_at(drawing, row, column); return ring < 0 ? chance : ring;
    case STROKES: return row % 8 < 6 && column % 5 < 4 && (row % 8 % 5 == 0 || column % 5 % 3 == 0 ? chance : 0);
    case BORDER:
        return column == 0 || row == last_row ? 1
               : row == 0                     ? column % 2 == 0
               : column == last_column        ? row % 2
                                              : chance;
    default: return chance;
    }
}

static void draw_chance(struct drawing *drawing) {
    drawing->kind = (enum kind)below(KINDS);
    drawing->rows = 10 + 2 * below(14), drawing->columns = below(3) > 0 ? drawing->rows : 10 + 2 * below(18);
    drawing->period = between(1.5, 4);
    for (int row = 0; row < drawing->rows; row++)
        for (int column = 0; column < drawing->columns; column++)
            draw_module(drawing, row, column, module_of(drawing, row, column, below(2)));
}

static int is_read(const uint8_t *modules, int rows, int columns) {
    static ecc200_reading reading;
    const ecc200_scan scan = {.rows = (uint16_t)rows, .columns = (uint16_t)columns, .limit = ECC200_ANY_LIMIT};
    return ecc200_read(modules, (size_t)rows * (size_t)columns, NULL, 0, &scan, &reading) == ECC200_OK;
}

/* A symbol, in two of three pictures a small one, damaged until it isn't read. False if it can't be written. */
static int draw_damaged(struct drawing *drawing, ecc200_reading *was) {
    static ecc200_symbol symbol;
    ecc200_size_table table;
    ecc200_sizes(&table);
    const ecc200_size *size = &table.sizes[below(below(3) > 0 ? SMALLEST : ECC200_SIZE_COUNT)];
    uint8_t text[ECC200_MOST_MODULES];
    int count = 1 + below(size->data_codewords);
    ecc200_how how = {.rows = size->rows, .columns = size->columns, .shape = ECC200_ONE};
    for (int k = 0; k < count; k++)
        text[k] = (uint8_t)('A' + below(26));
    const ecc200_scan scan = {.rows = size->rows, .columns = size->columns, .limit = ECC200_GIVEN_LIMIT};
    if (ecc200_write_bytes(text, (size_t)count, &how, &symbol) != ECC200_OK ||
        ecc200_read(symbol.modules, (size_t)symbol.rows * symbol.columns, NULL, 0, &scan, was) != ECC200_OK)
        return 0;
    while (is_read(symbol.modules, symbol.rows, symbol.columns))
        symbol.modules[(1 + below(symbol.rows - 2)) * symbol.columns + 1 + below(symbol.columns - 2)] ^= 1;
    drawing->kind = CHANCE, drawing->rows = symbol.rows, drawing->columns = symbol.columns;
    for (int row = 0; row < symbol.rows; row++)
        for (int column = 0; column < symbol.columns; column++)
            draw_module(drawing, row, column, symbol.modules[row * symbol.columns + column]);
    return 1;
}

/* A picture: how its pixels lie among the modules, and how they are taken. */
struct view {
    int width, height, is_inverted;
    double scale, cosine, sine, tilt, dark, light, noise, shade;
};

static double ink_at(const struct drawing *drawing, double x, double y) {
    if (drawing->kind == WAVES)
        return 0.5 + 0.25 * sin(6.283 * x / drawing->period) + 0.25 * sin(6.283 * (x + y) / (1.7 * drawing->period));
    int column = (int)floor(x), row = (int)floor(y);
    return row >= 0 && column >= 0 && row < drawing->rows && column < drawing->columns &&
           drawing->dark[row * MOST_MODULES_SHOWN + column];
}

static struct view look(const struct drawing *drawing) {
    double angle = below(3) > 0 ? between(0, 6.283) : 1.5708 * below(4), dark = between(0, 120);
    struct view view = {.scale = between(1, 6), .cosine = cos(angle), .sine = sin(angle), .tilt = between(-0.01, 0.01)};
    int longer = drawing->rows > drawing->columns ? drawing->rows : drawing->columns;
    double side = fmin((longer + 6) * view.scale * (fabs(view.cosine) + fabs(view.sine)), 399);
    view.width = view.height = (int)side + 1, view.is_inverted = below(4) == 0;
    view.dark = dark, view.light = dark + between(5, 250 - dark);
    view.noise = below(2) * between(0, 30), view.shade = between(-0.4, 0.4);
    return view;
}

static double noise(void) {
    double total = 0;
    for (int k = 0; k < 4; k++)
        total += between(-1, 1);
    return 0.866 * total;
}

static void take(const struct drawing *drawing, const struct view *view, uint8_t *pixels) {
    enum { FINE = 2 };
    for (int y = 0; y < view->height; y++)
        for (int x = 0; x < view->width; x++) {
            double ink = 0;
            for (int k = 0; k < FINE * FINE; k++) {
                double right = x + (k % FINE + 0.5) / FINE - view->width / 2.0,
                       down = y + (k / FINE + 0.5) / FINE - view->height / 2.0,
                       away = view->scale * (1 + view->tilt * down / view->scale);
                ink += ink_at(drawing, (view->cosine * right + view->sine * down) / away + drawing->columns / 2.0,
                              (view->cosine * down - view->sine * right) / away + drawing->rows / 2.0);
            }
            double level = view->light + (view->dark - view->light) * ink / (FINE * FINE);
            level = (view->is_inverted ? 255 - level : level) * (1 + view->shade * x / view->width);
            level += view->noise * noise();
            pixels[y * view->width + x] = (uint8_t)(level < 0 ? 0 : level > 255 ? 255 : level);
        }
}

/* A picture of any form that has nothing but noise: thin ones, and such as are no pictures. */
static struct view thin(uint8_t *pixels) {
    int most = below(8) == 0 ? 90 : 30, is_wide = below(100) == 0, is_flat = below(3) == 0;
    struct view view = {.width = 1 + below(is_wide ? 65535 : most), .height = 1 + below(is_flat ? 2 : most)};
    if ((int64_t)view.width * view.height > MOST_PIXELS)
        view.height = MOST_PIXELS / view.width;
    int levels = 1 + below(255);
    for (int k = 0; k < view.width * view.height; k++)
        pixels[k] = (uint8_t)(below(2) == 0 ? below(levels) : k % levels);
    return view;
}

/* How many pictures there were of each sort. */
enum sort { DAMAGED, WITHOUT, OF_ANY_FORM, SORTS };
static unsigned long counts[SORTS];

static int search_one(uint64_t number, uint16_t effort, int is_of_any_form) {
    static uint8_t pixels[MOST_PIXELS];
    static ecc200_sample found[4], unread[2];
    static struct drawing drawing;
    static ecc200_reading was;
    state = number * 0x9E3779B97F4A7C15u + 0x2545F4914F6CDD1Du, next(), next();
    was.item_count = 0, drawing.kind = CHANCE;
    struct view view;
    enum sort sort = is_of_any_form                                     ? OF_ANY_FORM
                     : number % 2 == 1 || !draw_damaged(&drawing, &was) ? WITHOUT
                                                                        : DAMAGED;
    if (sort == OF_ANY_FORM) {
        view = thin(pixels);
    } else {
        if (sort == WITHOUT)
            draw_chance(&drawing);
        view = look(&drawing);
        take(&drawing, &view, pixels);
    }
    counts[sort]++;
    ecc200_sample_search search = ecc200_sample_usual_search();
    search.symbols = found, search.room = 1 + number % 4, search.unread = unread, search.unread_room = number % 3;
    search.effort = effort;
    uint16_t code = ecc200_sample_find(pixels, (size_t)view.width, (size_t)view.height, (size_t)view.width, &search);
    ecc200_sample_point corners[4];
    const char *other =
        ecc200_sample_other_code(pixels, (size_t)view.width, (size_t)view.height, (size_t)view.width, corners);
    int is_wide = view.width > ECC200_SAMPLE_MOST_SIDE,
        wrong = other != NULL || code != (is_wide ? ECC200_SAMPLE_PICTURE : ECC200_SAMPLE_OK);
    for (size_t k = 0; k < search.count; k++)
        wrong |= found[k].reading.item_count != was.item_count ||
                 memcmp(found[k].reading.items, was.items, was.item_count * sizeof *was.items) != 0;
    if (wrong)
        printf("picture %llu, %d by %d: code %d, %zu read, %s\n", (unsigned long long)number, view.width, view.height,
               code, search.count, other != NULL ? other : "no other code");
    fflush(stdout);
    return wrong;
}

int main(int count, char **words) {
    if (count < 3)
        return 2;
    uint64_t first = strtoull(words[1], NULL, 10), pictures = strtoull(words[2], NULL, 10);
    uint16_t effort = (uint16_t)(count > 3 ? atoi(words[3]) : 0);
    int is_wrong = 0;
    for (uint64_t k = first; k < first + pictures; k++)
        is_wrong |= search_one(k, effort, count > 4 || k % 16 == 15);
    printf("%lu beyond repair, %lu without a symbol, %lu of any form\n", counts[DAMAGED], counts[WITHOUT],
           counts[OF_ANY_FORM]);
    return is_wrong;
}
