/* Answers requests, one on each line of the standard input, by the calls and conveniences of ecc200.h, with a line for
 * each: C and C++ alike. What is given to a call and what it writes stand directly before an inaccessible page.
 * tests/library/cases.py has the requests and the answers that are wanted. */
#ifndef _GNU_SOURCE
#define _GNU_SOURCE
#endif
#include "system.h"
#include <ecc200.h>
#include <listed.h>
#include <stdio.h>
#include <stdlib.h>
#include <string.h>

#define NAMED(name) printf("%s=%ld ", #name, (long)ECC200_##name)
#define SIZED(type) printf("%s=%zu ", #type, sizeof(ecc200_##type))
#define LAID(type, member)                                                                                             \
    printf("%s.%s=%zu+%zu ", #type, #member, offsetof(ecc200_##type, member), sizeof(((ecc200_##type *)0)->member))

enum { AREA = 1 << 20, LINE = 1 << 19, BEFORE = 1 << 14 };

typedef uint8_t *area; /* the end of an area, before an inaccessible page */

static area modules_area, doubt_area, items_area, marks_area, bytes_area, out_area;
static uint8_t rubbish; /* what all of them hold before a call, for each request another byte */

static void die(const char *what) {
    printf("%s\n", what);
    exit(2);
}

static area new_area(void) { return (uint8_t *)guarded(AREA) + AREA; }

/* so many bytes at the end of the area, which hold rubbish, as do those before them */
static uint8_t *place_of(area whole, size_t size) {
    if (size + BEFORE > AREA)
        die("too much");
    memset(whole - size - BEFORE, rubbish, size + BEFORE);
    return whole - size;
}

static void check_before(area whole, size_t size) {
    for (uint8_t *at = whole - size - BEFORE; at < whole - size; at++)
        if (*at != rubbish)
            die(" written before the room");
}

/* ---- Arguments: words of the line */

static char *rest;

static char *word(void) {
    char *found = strtok_r(NULL, " \n", &rest);
    if (!found)
        die("a request lacks a word");
    return found;
}

static uint16_t number(void) { return (uint16_t)strtoul(word(), NULL, 10); }

static int digit_of(char letter) { return (letter & 15) + 9 * (letter > '9'); }

/* bytes that are written as pairs of hexadecimal digits, or none as - */
static const uint8_t *bytes_of(area whole, size_t *count) {
    const char *text = word();
    *count = *text == '-' ? 0 : strlen(text) / 2;
    uint8_t *bytes = place_of(whole, *count);
    for (size_t i = 0; i < *count; i++)
        bytes[i] = (uint8_t)(16 * digit_of(text[2 * i]) + digit_of(text[2 * i + 1]));
    return bytes;
}

/* a word of parts with commas between them, or none as -, and how many they are */
static char *listed(size_t *count) {
    char *text = word();
    *count = *text != '-';
    for (const char *at = text; *at; at++)
        *count += *at == ',';
    return text;
}

/* items that are written as numbers with commas between them, or none as - */
static const uint16_t *items_of(size_t *count) {
    char *text = listed(count);
    uint16_t *items = (uint16_t *)(void *)place_of(items_area, 2 * *count);
    for (size_t i = 0; i < *count; i++, text++)
        items[i] = (uint16_t)strtoul(text, &text, 10);
    return items;
}

/* marks that are written as a number, @ and a place, with commas between them, or none as -; none is given as NULL */
static const ecc200_mark *marks_of(size_t *count) {
    char *text = listed(count);
    ecc200_mark *marks = (ecc200_mark *)(void *)place_of(marks_area, sizeof *marks * *count);
    for (size_t i = 0; i < *count; i++, text++) {
        marks[i].number = (uint32_t)strtoul(text, &text, 10);
        text++;
        marks[i].place = (uint32_t)strtoul(text, &text, 10);
    }
    return *count ? marks : NULL;
}

/* a head that is written as five numbers with colons between them */
static ecc200_head head_given(void) {
    ecc200_head head;
    unsigned number[5];
    char *text = word();
    for (int i = 0; i < 5; i++, text++)
        number[i] = (unsigned)strtoul(text, &text, 10);
    head.kind = (uint16_t)number[0], head.part = (uint16_t)number[1], head.parts = (uint16_t)number[2];
    head.file[0] = (uint8_t)number[3], head.file[1] = (uint8_t)number[4];
    return head;
}

/* ---- Answers */

/* a number as printf prints it, which takes many times as long for each of so many */
static void print_number(unsigned number) {
    if (number > 9)
        print_number(number / 10);
    putchar('0' + (int)(number % 10));
}

/* numbers of one or two bytes with commas between them, or none as - */
#define PRINT_NUMBERS(numbers, count)                                                                                  \
    do {                                                                                                               \
        for (size_t i = 0; i < (size_t)(count); i++) {                                                                 \
            if (i)                                                                                                     \
                putchar(',');                                                                                          \
            print_number((numbers)[i]);                                                                                \
        }                                                                                                              \
        printf("%s", (count) ? "" : "-");                                                                              \
    } while (0)

static void print_counts(const uint8_t *counts, size_t count) {
    for (size_t i = 0; i < count; i++)
        counts[i] == ECC200_BEYOND ? printf("%sbeyond", i ? "," : "") : printf("%s%d", i ? "," : "", counts[i]);
}

/* whether there is a fault, which is printed: the numbers behind it have to be 0, and the arrays as they were */
static int is_fault(uint16_t code, const void *out, size_t arrays, size_t size) {
    ecc200_fault fault;
    memcpy(&fault, out, sizeof fault);
    if (code != fault.code)
        printf("returned %d, and ", code);
    if (!fault.code)
        return 0;
    printf("no %d %d %d", fault.code, fault.value, fault.place);
    for (size_t i = sizeof fault; i < size; i++)
        if (((const uint8_t *)out)[i] != (i < arrays ? 0 : rubbish))
            return printf(", and something else written behind it"), 1;
    return 1;
}

/* the elements of an array past those that count are left as they were */
static void check_rest(const void *from, const void *to) {
    const uint8_t *first = (const uint8_t *)from, *end = (const uint8_t *)to;
    if (first < end && (*first != rubbish || memcmp(first, first + 1, (size_t)(end - first) - 1)))
        printf(" written behind");
}

/* Rows, columns, modules and doubtful modules, as the calls take them. */
typedef struct {
    uint16_t rows, columns;
    const uint8_t *modules, *doubtful;
    size_t count, doubtful_count;
} grid;

/* a limit that is written as its kind and its number with a colon between them */
static void set_limit(ecc200_scan *scan) {
    char *text = word();
    scan->limit = (uint16_t)strtoul(text, &text, 10);
    scan->border_limit = (uint16_t)strtoul(text + 1, NULL, 10);
}

/* what is given for reading stands before an inaccessible page too */
static const ecc200_scan *scan_of(ecc200_scan scan, const grid *given) {
    ecc200_scan *placed = (ecc200_scan *)(void *)place_of(bytes_area, sizeof scan);
    scan.rows = given->rows, scan.columns = given->columns;
    *placed = scan;
    return placed;
}

static grid grid_given(void) {
    grid given;
    given.rows = number(), given.columns = number();
    given.modules = bytes_of(modules_area, &given.count);
    given.doubtful = bytes_of(doubt_area, &given.doubtful_count);
    given.doubtful = given.doubtful_count ? given.doubtful : NULL;
    return given;
}

/* what each block had */
static void print_blocks(const uint8_t *corrected, const uint8_t *erased, const uint8_t *left, size_t count) {
    const uint8_t *counts[] = {corrected, erased, left};
    const char *names[] = {"corrected", "erased", "left"};
    for (int i = 0; i < 3; i++) {
        printf("%s ", names[i]);
        print_counts(counts[i], count);
        printf(" ");
        check_rest(counts[i] + count, counts[i] + ECC200_MOST_BLOCKS);
    }
}

static void print_marks(const ecc200_mark *marks, int count) {
    for (int i = 0; i < count; i++)
        printf("%s%lu@%lu", i ? "," : "", (unsigned long)marks[i].number, (unsigned long)marks[i].place);
    printf("%s", count ? "" : "-");
}

/* items, marks and head */
static void print_said(const ecc200_reading *said) {
    printf("items ");
    PRINT_NUMBERS(said->items, said->item_count);
    printf(" marks ");
    print_marks(said->marks, said->mark_count);
    printf(" head %d:%d:%d:%d:%d", said->head.kind, said->head.part, said->head.parts, said->head.file[0],
           said->head.file[1]);
}

static void answer_read(void) {
    ecc200_scan scan;
    scan.extent = number(), set_limit(&scan);
    grid given = grid_given();
    ecc200_reading *out = (ecc200_reading *)(void *)place_of(out_area, sizeof *out);
    uint16_t code =
        ecc200_read(given.modules, given.count, given.doubtful, given.doubtful_count, scan_of(scan, &given), out);
    if (is_fault(code, out, offsetof(ecc200_reading, corrected), sizeof *out))
        return;
    printf("rows %d columns %d border %d blocks %d ", out->rows, out->columns, out->border_faults, out->block_count);
    print_blocks(out->corrected, out->erased, out->left, out->block_count);
    print_said(out);
    check_rest(out->items + out->item_count, out->items + ECC200_MOST_ITEMS);
    check_rest(out->marks + out->mark_count, out->marks + ECC200_MOST_MARKS);
    printf(" identifier %d dealing %d", out->identifier, out->dealing);
}

static void print_symbol(uint16_t code, const ecc200_symbol *out) {
    if (is_fault(code, out, offsetof(ecc200_symbol, modules), sizeof *out))
        return;
    static char digits[ECC200_MOST_MODULES];
    for (int i = 0; i < out->rows * out->columns; i++)
        digits[i] = (char)('0' + out->modules[i]);
    printf("rows %d columns %d modules %.*s", out->rows, out->columns, out->rows * out->columns, digits);
    check_rest(out->modules + out->rows * out->columns, out->modules + ECC200_MOST_MODULES);
}

static ecc200_symbol *symbol_place(void) { return (ecc200_symbol *)(void *)place_of(out_area, sizeof(ecc200_symbol)); }

static void answer_normal(void) {
    ecc200_scan scan;
    scan.extent = number();
    uint16_t profile = number();
    set_limit(&scan);
    grid given = grid_given();
    ecc200_symbol *out = symbol_place();
    print_symbol(ecc200_normal(given.modules, given.count, given.doubtful, given.doubtful_count, scan_of(scan, &given),
                               profile, out),
                 out);
}

static ecc200_how how_given(void) {
    ecc200_how how;
    how.form = number(), how.shape = number(), how.rows = number(), how.columns = number();
    how.extent = number(), how.head = head_given();
    return how;
}

static void answer_write(void) {
    size_t count, mark_count;
    ecc200_how how = how_given();
    const ecc200_mark *marks = marks_of(&mark_count);
    const uint16_t *items = items_of(&count);
    ecc200_symbol *out = symbol_place();
    print_symbol(ecc200_write(items, count, marks, mark_count, &how, out), out);
}

/* the size of the smallest symbol, whether the usual extent reads it, and what it says */
static void answer_smallest(void) {
    static ecc200_symbol symbol;
    size_t count, mark_count;
    ecc200_how how;
    how.form = ECC200_SMALLEST, how.extent = number();
    how.shape = number(), how.rows = number(), how.columns = number(), how.head = head_given();
    const ecc200_mark *marks = marks_of(&mark_count);
    const uint16_t *items = items_of(&count);
    ecc200_reading *out = (ecc200_reading *)(void *)place_of(out_area, sizeof *out);
    if (ecc200_write(items, count, marks, mark_count, &how, &symbol)) {
        printf("no %d %d %d", symbol.fault.code, symbol.fault.value, symbol.fault.place);
        return;
    }
    uint16_t rows = symbol.rows, columns = symbol.columns;
    size_t all = (size_t)rows * columns;
    ecc200_scan scan = {rows, columns, ECC200_GIVEN_LIMIT, 0, ECC200_USUAL};
    int is_usual = !ecc200_read(symbol.modules, all, NULL, 0, &scan, out);
    printf("rows %d columns %d usual %d ", rows, columns, is_usual);
    scan.extent = how.extent;
    if (ecc200_read(symbol.modules, all, NULL, 0, &scan, out))
        printf("not read: %d", out->fault.code);
    else
        print_said(out);
}

static void answer_write_bytes(void) {
    size_t count;
    ecc200_how how = how_given();
    const uint8_t *bytes = bytes_of(bytes_area, &count);
    ecc200_symbol *out = symbol_place();
    print_symbol(ecc200_write_bytes(bytes, count, &how, out), out);
}

static void answer_inspect(void) {
    grid given = grid_given();
    ecc200_inspection *out = (ecc200_inspection *)(void *)place_of(out_area, sizeof *out);
    uint16_t code = ecc200_inspect(given.modules, given.count, given.doubtful, given.doubtful_count, given.rows,
                                   given.columns, out);
    if (is_fault(code, out, offsetof(ecc200_inspection, designators), sizeof *out))
        return;
    printf("rows %d columns %d border %d blocks %d ", out->rows, out->columns, out->border_faults, out->block_count);
    print_blocks(out->corrected, out->erased, out->left, out->block_count);
    printf("held ");
    PRINT_NUMBERS(out->held, out->codeword_count);
    printf(" mended ");
    PRINT_NUMBERS(out->mended, out->codeword_count);
    printf(" designators ");
    print_marks(out->designators, out->designator_count);
    check_rest(out->designators + out->designator_count, out->designators + ECC200_MOST_MARKS);
    check_rest(out->held + out->codeword_count, out->held + ECC200_MOST_CODEWORDS);
    check_rest(out->mended + out->codeword_count, out->mended + ECC200_MOST_CODEWORDS);
}

static void answer_places(void) {
    uint16_t rows = number(), columns = number();
    ecc200_place_table *out = (ecc200_place_table *)(void *)place_of(out_area, sizeof *out);
    if (is_fault(ecc200_places(rows, columns, out), out, offsetof(ecc200_place_table, places), sizeof *out))
        return;
    printf("rows %d columns %d", out->rows, out->columns);
    for (int i = 0; i < out->rows * out->columns; i++)
        printf(" %d,%d,%d", out->places[i].kind, out->places[i].codeword, out->places[i].bit);
    check_rest(out->places + out->rows * out->columns, out->places + ECC200_MOST_MODULES);
}

static void answer_sizes(void) {
    ecc200_size_table *out = (ecc200_size_table *)(void *)place_of(out_area, sizeof *out);
    ecc200_sizes(out);
    for (int i = 0; i < ECC200_SIZE_COUNT; i++) {
        const ecc200_size *size = &out->sizes[i];
        printf("%s%d %d %d %d", i ? " | " : "", size->rows, size->columns, size->region_rows, size->region_columns);
        printf(" %d %d %d %d", size->regions_down, size->regions_across, size->mapping_rows, size->mapping_columns);
        printf(" %d %d %d", size->data_codewords, size->check_codewords, size->blocks);
        printf(" %d %d", size->limit, size->extension);
    }
}

/* Room 0 is given as NULL, and so is where to put whether FNC1 stands in front, unless it's asked for. */
static void answer_text(void) {
    size_t count, room = strtoul(word(), NULL, 10);
    int asked = number(), gs1 = -1;
    const uint16_t *items = items_of(&count);
    ecc200_reading *reading = (ecc200_reading *)(void *)place_of(out_area, sizeof *reading);
    memset(reading, 0, sizeof *reading);
    memcpy(reading->items, items, 2 * count);
    reading->item_count = (uint16_t)count;
    uint8_t *bytes = place_of(bytes_area, room);
    size_t said = ecc200_text(reading, room ? bytes : NULL, room, asked ? &gs1 : NULL);
    printf("%zu gs1 %d bytes ", said, gs1);
    PRINT_NUMBERS(bytes, said < room ? said : room);
    check_rest(bytes + said, bytes + room);
    check_before(bytes_area, room);
}

static void answer_items(void) {
    size_t count, room = strtoul(word(), NULL, 10);
    int gs1 = atoi(word());
    const uint8_t *bytes = bytes_of(bytes_area, &count);
    uint16_t *items = (uint16_t *)(void *)place_of(items_area, 2 * room);
    size_t said = ecc200_items(count ? bytes : NULL, count, gs1, room ? items : NULL, room);
    printf("%zu items ", said);
    PRINT_NUMBERS(items, said < room ? said : room);
    check_rest(items + said, items + room);
    check_before(items_area, 2 * room);
}

/* the numbers, and where each member of a struct stands: of those that listed.h names, by callers.py */
static void answer_constants(void) { CONSTANTS; }
static void answer_layout(void) { LAYOUT; }
static void answer_compatible(void) { printf("%d", ecc200_abi() == ECC200_ABI); }
static void answer_limit(void) {
    uint16_t rows = number(), columns = number();
    printf("%d", ecc200_usual_limit(rows, columns));
}
static void answer_words(void) { printf("%s", ecc200_words(number())); }
static void answer_code_words(void) { printf("%s", ecc200_code_words(number())); }
static void answer_version(void) { printf("%s %s", ecc200_version(), ECC200_VERSION); }

#define ANSWERED(name)                                                                                                 \
    { #name, answer_##name }
static const struct {
    const char *name;
    void (*answer)(void);
} requests[] = {ANSWERED(read),       ANSWERED(normal),     ANSWERED(write), ANSWERED(smallest), ANSWERED(inspect),
                ANSWERED(places),     ANSWERED(sizes),      ANSWERED(text),  ANSWERED(items),    ANSWERED(constants),
                ANSWERED(layout),     ANSWERED(compatible), ANSWERED(limit), ANSWERED(words),    ANSWERED(write_bytes),
                ANSWERED(code_words), ANSWERED(version)};

int main(void) {
    static char line[LINE];
    modules_area = new_area(), doubt_area = new_area(), items_area = new_area(), bytes_area = new_area();
    marks_area = new_area(), out_area = new_area();
    while (fgets(line, sizeof line, stdin)) {
        const char *name = strtok_r(line, " \n", &rest);
        size_t i = 0;
        rubbish = (uint8_t)(rubbish + 101);
        while (i < sizeof requests / sizeof *requests && strcmp(requests[i].name, name))
            i++;
        if (i == sizeof requests / sizeof *requests)
            die("no such request");
        requests[i].answer();
        printf("\n");
    }
    return 0;
}
