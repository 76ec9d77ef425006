/* Random calls, with an inaccessible page directly behind each input and each output: nothing outside is touched, each
 * call returns, and the answers of the calls agree with one another, whatever their outputs held before.
 * The first argument is the number of rounds, the second the extent: 0 or 1. */
#define _GNU_SOURCE
#include "system.h"
#include <ecc200.h>
#include <stdio.h>
#include <stdlib.h>
#include <string.h>

enum { AREA = 1 << 17 };

typedef struct {
    uint16_t rows, columns;
} dimensions;

/* rows and columns of no size */
static const dimensions others[] = {{0, 0},         {1, 1},     {11, 11}, {28, 28},   {18, 8},
                                    {10, 18},       {8, 0},     {0, 8},   {145, 145}, {160, 160},
                                    {65535, 65535}, {65535, 0}, {144, 8}, {26, 640},  {16, 50}};
static uint16_t extent;
static long reads, both, doubts, letters;
static uint8_t *area, *doubt_area, *marks_area;
static ecc200_reading *reading;
static ecc200_symbol *symbol, *again;
static ecc200_inspection *inspection;
static ecc200_place_table *table;
static ecc200_size_table sizes;

static int fail(const char *what) {
    printf("%s\n", what);
    return 1;
}

/* a random number below 2^31: the upper bits of Knuth's generator for MMIX, as C's own takes a lock */
static int chance(void) {
    static uint64_t state = 3;
    state = state * 6364136223846793005 + 1442695040888963407;
    return (int)(state >> 33);
}

/* random modules, now and then a number of them that isn't rows times columns */
static uint8_t *noise(dimensions size, size_t *count) {
    *count = chance() % 20 ? (size_t)size.rows * size.columns : (size_t)(chance() % 22000);
    if (*count > AREA)
        *count = AREA;
    uint8_t *modules = area + AREA - *count;
    for (size_t i = 0; i < *count; i++)
        modules[i] = (uint8_t)chance();
    return modules;
}

/* a head or, mostly, none; now and then one that is wrong */
static ecc200_head any_head(void) {
    ecc200_head head = {0, 0, 0, {0, 0}};
    int way = chance() % 12;
    head.kind = (uint16_t)(way < 8 ? ECC200_NO_HEAD : way == 8 ? ECC200_PROGRAMMING : way == 11 ? chance() % 4 : 1);
    if (way > 8) {
        head.parts = (uint16_t)(2 + chance() % 15 + (way == 11)), head.part = (uint16_t)(1 + chance() % head.parts);
        head.file[0] = (uint8_t)(1 + chance() % 254), head.file[1] = (uint8_t)(1 + chance() % (254 + (way == 11)));
    }
    return head;
}

/* marks in order, or mostly so, or none */
static const ecc200_mark *any_marks(size_t items_count, size_t *mark_count) {
    static const uint32_t most[] = {130, 17000, 1000000, 1000003};
    *mark_count = chance() % 3 ? 0 : (size_t)(chance() % (chance() % 4 ? 5 : 900));
    ecc200_mark *marks = (ecc200_mark *)(void *)(marks_area + AREA) - *mark_count;
    uint32_t place = 0, left = (uint32_t)items_count;
    for (size_t i = 0; i < *mark_count; i++) {
        uint32_t step = (uint32_t)chance() % (uint32_t)(2 + left / (*mark_count - i));
        place += step, left -= step < left ? step : left;
        marks[i].number = (uint32_t)chance() % most[chance() % 4], marks[i].place = place;
    }
    return *mark_count ? marks : NULL;
}

/* how the symbol that was written is read: without a wrong border module */
static ecc200_scan clean_scan(void) {
    ecc200_scan scan = {symbol->rows, symbol->columns, ECC200_GIVEN_LIMIT, 0, extent};
    return scan;
}

/* what was written is read as it, and nothing else */
static int is_read_back(const uint16_t *items, size_t count, const ecc200_mark *marks, size_t mark_count,
                        const ecc200_how *how) {
    static ecc200_reading got;
    ecc200_scan scan = clean_scan();
    scan.extent = how->form == ECC200_SMALLEST ? how->extent : (uint16_t)ECC200_WIDE;
    if (ecc200_read(symbol->modules, (size_t)symbol->rows * symbol->columns, NULL, 0, &scan, &got))
        return 0;
    return got.item_count == count && !memcmp(got.items, items, 2 * count) && got.mark_count == mark_count &&
           (!mark_count || !memcmp(got.marks, marks, mark_count * sizeof *marks)) &&
           !memcmp(&got.head, &how->head, sizeof got.head) && got.identifier >= 1 &&
           got.identifier <= (mark_count ? 6 : 3) && got.dealing == 0;
}

/* the modules of a written symbol, damaged or not; or noise if it can't be written; NULL if something is wrong */
static uint8_t *written(dimensions *size, size_t *count) {
    size_t items_count = (size_t)(chance() % 2 ? chance() % 3200 : chance() % 40), mark_count;
    ecc200_how how = {.form = (uint16_t)(chance() % 4), .rows = size->rows, .columns = size->columns};
    how.shape = (uint16_t)(chance() % 6), how.extent = (uint16_t)(chance() % 10 ? ECC200_WIDE : chance() % 3);
    how.head = any_head();
    uint16_t *items = (uint16_t *)(void *)(area + AREA) - items_count;
    const ecc200_mark *marks = any_marks(items_count, &mark_count);
    int often = chance() % 3 ? 257 : 128;
    for (size_t i = 0; i < items_count; i++)
        items[i] = (uint16_t)(chance() % (chance() % 500 ? often : 300));
    memset(symbol, 0xEE, sizeof *symbol);
    if (ecc200_write(items, items_count, marks, mark_count, &how, symbol))
        return noise(*size, count);
    if (!is_read_back(items, items_count, marks, mark_count, &how))
        return NULL;
    size->rows = symbol->rows, size->columns = symbol->columns;
    *count = (size_t)size->rows * size->columns;
    uint8_t *modules = area + AREA - *count;
    memcpy(modules, symbol->modules, *count);
    for (int turns = chance() % 3 * (chance() % 40); turns > 0; turns--)
        modules[(size_t)chance() % *count] ^= 1;
    return modules;
}

/* a symbol whose data codewords are random, but often begin or end something: an encodation, a shift, a macro, the
 * message; its check codewords are restored as doubtful ones */
static uint8_t *spelled(dimensions *named, size_t *count) {
    static const uint8_t turns[] = {129, 230, 231, 232, 233, 234, 235, 236, 237,
                                    238, 239, 240, 241, 241, 254, 0,   124, 31};
    const ecc200_size *size = &sizes.sizes[(size_t)chance() % (chance() % 2 ? 8 : ECC200_SIZE_COUNT)];
    uint8_t words[ECC200_MOST_CODEWORDS];
    int often = 2 + chance() % 40;
    for (int i = 0; i < size->data_codewords; i++)
        words[i] = chance() % often ? (uint8_t)(1 + chance() % (often % 2 ? 229 : 128))
                                    : turns[(size_t)chance() % sizeof turns];
    if (chance() % 3 == 0)
        words[0] = turns[(size_t)chance() % sizeof turns];
    named->rows = size->rows, named->columns = size->columns, *count = (size_t)size->rows * size->columns;
    uint8_t *modules = area + AREA - *count, *checks = doubt_area + AREA - *count;
    ecc200_places(size->rows, size->columns, table);
    for (size_t i = 0; i < *count; i++) {
        const ecc200_place at = table->places[i];
        checks[i] = at.kind == ECC200_BIT && at.codeword >= size->data_codewords;
        modules[i] = at.kind == ECC200_BORDER_DARK || at.kind == ECC200_FIXED_DARK;
        if (at.kind == ECC200_BIT && !checks[i])
            modules[i] = words[at.codeword] >> (8 - at.bit) & 1;
    }
    if (ecc200_inspect(modules, *count, checks, *count, size->rows, size->columns, inspection))
        return NULL;
    for (size_t i = 0; i < *count; i++)
        if (checks[i])
            modules[i] = inspection->mended[table->places[i].codeword] >> (8 - table->places[i].bit) & 1;
    return modules;
}

/* doubtful modules, few or many of them, or as many as the modules aren't, or none */
static const uint8_t *doubt(size_t count, size_t *doubtful_count) {
    int way = chance() % 8, often = 1 + chance() % 400;
    *doubtful_count = way < 4 ? 0 : way == 4 && chance() % 8 == 0 ? (size_t)(chance() % 22000) : count;
    uint8_t *marks = doubt_area + AREA - *doubtful_count;
    for (size_t i = 0; i < *doubtful_count; i++)
        marks[i] = way != 5 && chance() % often == 0 ? (uint8_t)(1 + chance() % 255) : 0;
    return *doubtful_count ? marks : NULL;
}

/* two readings say the same, whatever their symbols */
static int say_the_same(const ecc200_reading *one, const ecc200_reading *other) {
    return one->item_count == other->item_count && !memcmp(one->items, other->items, 2 * (size_t)one->item_count) &&
           one->mark_count == other->mark_count &&
           !memcmp(one->marks, other->marks, one->mark_count * sizeof *one->marks) &&
           !memcmp(&one->head, &other->head, sizeof one->head);
}

/* the symbol that is written is its own normal one, and says what was read */
static int check_normal(uint16_t profile) {
    static ecc200_reading first;
    size_t count = (size_t)symbol->rows * symbol->columns;
    first = *reading;
    memset(again, 0xEE, sizeof *again);
    if (symbol->rows != symbol->columns)
        return fail("a normal symbol is no square");
    const ecc200_scan scan = clean_scan();
    if (ecc200_normal(symbol->modules, count, NULL, 0, &scan, profile, again) || memcmp(symbol, again, sizeof *symbol))
        return fail("normalising twice isn't once");
    uint16_t code = ecc200_read(symbol->modules, count, NULL, 0, &scan, reading);
    if (code || !say_the_same(reading, &first) || reading->dealing)
        return fail("the normal symbol says something else");
    return 0;
}

/* the rows and columns of a size, or some that no size has */
static dimensions any_size(void) {
    size_t at = (size_t)chance() % (ECC200_SIZE_COUNT + sizeof others / sizeof *others);
    if (at >= ECC200_SIZE_COUNT)
        return others[at - ECC200_SIZE_COUNT];
    dimensions found = {sizes.sizes[at].rows, sizes.sizes[at].columns};
    return found;
}

static int is_size(dimensions size) {
    for (int i = 0; i < ECC200_SIZE_COUNT; i++)
        if (sizes.sizes[i].rows == size.rows && sizes.sizes[i].columns == size.columns)
            return 1;
    return 0;
}

/* what an inspection and a reading say of the same blocks */
static int blocks_agree(void) {
    size_t count = reading->block_count;
    return inspection->block_count == count && !memcmp(inspection->corrected, reading->corrected, count) &&
           !memcmp(inspection->erased, reading->erased, count) && !memcmp(inspection->left, reading->left, count) &&
           inspection->border_faults == reading->border_faults;
}

/* whether as many border faults are taken as are sure: any number, if each block leaves a correction, or the usual */
static int is_sure(const uint8_t *modules, size_t count, const uint8_t *marks, size_t marked, ecc200_scan scan) {
    static ecc200_reading one, other;
    int is_spent = ecc200_inspect(modules, count, marks, marked, scan.rows, scan.columns, inspection) != ECC200_OK;
    for (int i = 0; i < inspection->block_count; i++)
        is_spent |= inspection->corrected[i] == ECC200_BEYOND || inspection->left[i] < 2;
    is_spent |= inspection->dealing && scan.extent == ECC200_USUAL;
    memset(&one, 0xEE, sizeof one), memset(&other, 0xEE, sizeof other);
    scan.limit = ECC200_SURE_LIMIT;
    ecc200_read(modules, count, marks, marked, &scan, &one);
    scan.limit = is_spent ? ECC200_GIVEN_LIMIT : ECC200_ANY_LIMIT;
    scan.border_limit = ecc200_usual_limit(scan.rows, scan.columns);
    ecc200_read(modules, count, marks, marked, &scan, &other);
    return !memcmp(&one, &other, sizeof one);
}

static int round_of(void) {
    static ecc200_reading second;
    dimensions size = any_size();
    uint16_t profile = (uint16_t)(chance() % 2);
    size_t count, marked;
    int way = chance() % 4;
    uint8_t *modules = way == 0 ? noise(size, &count) : way == 1 ? written(&size, &count) : spelled(&size, &count);
    if (!modules)
        return fail("what was written is read as something else");
    const uint8_t *marks = doubt(count, &marked);
    uint16_t rows = size.rows, columns = size.columns;
    ecc200_scan scan = {rows, columns, (uint16_t)(chance() % 4), (uint16_t)(chance() % 50), extent};
    memset(reading, 0xEE, sizeof *reading), memset(&second, 0xEE, sizeof second);
    uint16_t code = ecc200_read(modules, count, marks, marked, &scan, reading);
    ecc200_read(modules, count, marks, marked, &scan, &second);
    if (memcmp(reading, &second, sizeof second) || code != reading->fault.code)
        return fail("a reading isn't a function of its input");
    if (!is_sure(modules, count, marks, marked, scan))
        return fail("as many border faults are taken as aren't sure");
    memset(&second, 0xEE, sizeof second);
    scan.extent = extent == ECC200_WIDE ? ECC200_USUAL : ECC200_WIDE;
    uint16_t other = ecc200_read(modules, count, marks, marked, &scan, &second);
    scan.extent = extent;
    reads += code == ECC200_OK, both += code == ECC200_OK && other == ECC200_OK;
    doubts += code == ECC200_OK && marked > 0;
    letters += code == ECC200_OK && (reading->mark_count || reading->head.kind);
    if ((extent == ECC200_WIDE ? other : code) == ECC200_OK && memcmp(reading, &second, sizeof second))
        return fail("what the usual extent reads the wide one reads otherwise");
    memset(inspection, 0xEE, sizeof *inspection);
    uint16_t inspected = ecc200_inspect(modules, count, marks, marked, rows, columns, inspection);
    if (inspected != (code == ECC200_SHAPE || code == ECC200_DOUBT || code == ECC200_SIZE ? code : 0))
        return fail("an inspection is refused");
    if (!code && !blocks_agree())
        return fail("an inspection and a reading differ");
    memset(symbol, 0xEE, sizeof *symbol);
    uint16_t normal = ecc200_normal(modules, count, marks, marked, &scan, profile, symbol);
    if (normal && normal != ECC200_TOO_LONG && memcmp(&symbol->fault, &reading->fault, sizeof symbol->fault))
        return fail("a reading and a normal symbol are refused differently");
    memset(table, 0xEE, sizeof *table);
    if (ecc200_places(rows, columns, table) != (is_size(size) ? ECC200_OK : ECC200_SIZE))
        return fail("places are refused");
    return normal ? 0 : check_normal(profile);
}

int main(int argc, char **argv) {
    long rounds = argc > 1 ? atol(argv[1]) : 20000;
    extent = argc > 2 ? (uint16_t)atoi(argv[2]) : ECC200_WIDE;
    area = guarded(AREA), doubt_area = guarded(AREA), marks_area = guarded(AREA), reading = guarded(sizeof *reading);
    symbol = guarded(sizeof *symbol), again = guarded(sizeof *again);
    inspection = guarded(sizeof *inspection), table = guarded(sizeof *table);
    ecc200_how how;
    memset(&how, 0, sizeof how), memset(symbol, 0xEE, sizeof *symbol), memset(again, 0xEE, sizeof *again);
    if (ecc200_write(NULL, 0, NULL, 0, &how, symbol) || symbol->rows != 10 || symbol->columns != 10)
        return fail("the empty message isn't written");
    ecc200_scan scan = {0, 0, ECC200_USUAL_LIMIT, 0, extent};
    uint16_t code = ecc200_read(NULL, 0, NULL, 0, &scan, reading);
    scan.rows = scan.columns = 10;
    if (code != ECC200_SIZE || ecc200_read(NULL, 0, NULL, 0, &scan, reading) != ECC200_SHAPE)
        return fail("no modules are read");
    if (ecc200_inspect(NULL, 0, NULL, 0, 0, 0, inspection) != ECC200_SIZE)
        return fail("no modules make a symbol");
    if (ecc200_write_bytes(NULL, 0, &how, again) || memcmp(symbol, again, sizeof *symbol))
        return fail("no bytes aren't the empty message");
    ecc200_sizes(&sizes);
    for (long i = 0; i < rounds; i++)
        if (round_of())
            return 1;
    printf("%ld of %ld symbols are read, %ld in both extents, %ld with doubtful modules, %ld with marks or a head\n",
           reads, rounds, both, doubts, letters);
    return 0;
}
