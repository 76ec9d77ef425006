#include "report.h"

#include <math.h>
#include <stdio.h>
#include <string.h>

#include "text.h"

static void put_row(const ecc200_sample *symbol, const uint8_t *modules, int row) {
    for (int column = 0; column < symbol->columns; column++)
        putchar('0' + modules[row * symbol->columns + column]);
}

static bool has_doubt(const ecc200_sample *symbol) {
    return memchr(symbol->doubtful, 1, (size_t)symbol->rows * (size_t)symbol->columns) != NULL;
}

/* Why what a symbol says is no message, or NULL if it is one. */
static const char *no_message(const ecc200_reading *reading) {
    if (reading->head.kind == ECC200_PART)
        return "is one part of several (structured append), which dm_tool doesn't read";
    if (reading->head.kind == ECC200_PROGRAMMING)
        return "programs the reader, which dm_tool doesn't read";
    return reading->mark_count > 0 ? "has an ECI, which dm_tool doesn't read" : NULL;
}

const char *report_no_record(const ecc200_sample *symbol) {
    enum { MOST_OF_RECORDS = 104 };
    if (symbol->rows != symbol->columns)
        return "is no square";
    if (symbol->rows > MOST_OF_RECORDS)
        return "is larger than those of dm_tool";
    if (has_doubt(symbol))
        return "was read without its doubtful modules, of which dm_tool knows nothing";
    return no_message(&symbol->reading);
}

void report_record(const ecc200_sample *symbol) {
    for (int row = 0; row < symbol->rows; row++) {
        put_row(symbol, symbol->modules, row);
        putchar('\n');
    }
    putchar('\n');
}

void report_corners(const char *file, const ecc200_sample *symbol) {
    put_shown(file, stderr);
    fputc(':', stderr);
    for (int k = 0; k < 4; k++)
        fprintf(stderr, " %.1f,%.1f", symbol->corners[k].x, symbol->corners[k].y);
    fputc('\n', stderr);
}

/* ---- JSON */

/* An item as dm_tool spells it. Within quotes each of its backslashes becomes two. */
static void put_item(uint16_t item) {
    if (item == ECC200_FNC1)
        fputs("\\\\F", stdout);
    else if (item == '\\')
        fputs("\\\\\\\\", stdout);
    else if (item == '"')
        fputs("\\\"", stdout);
    else if (item >= 32 && item <= 126)
        putchar(item);
    else
        printf("\\\\x%02X", item);
}

static void spell_head(const ecc200_head *head) {
    if (head->kind == ECC200_PROGRAMMING)
        fputs("\\\\P", stdout);
    if (head->kind == ECC200_PART)
        printf("\\\\A{%d/%d:%03d%03d}", head->part, head->parts, head->file[0], head->file[1]);
}

/* What a symbol says, in quotes: the head in front, and each ECI mark at its place, so that neither a part nor bytes
 * that aren't meant as usual are taken for a message. */
static void put_message(const ecc200_reading *reading) {
    putchar('"');
    spell_head(&reading->head);
    for (int k = 0, mark = 0; k <= reading->item_count; k++) {
        for (; mark < reading->mark_count && (int)reading->marks[mark].place == k; mark++)
            printf("\\\\E{%d}", (int)reading->marks[mark].number);
        if (k < reading->item_count)
            put_item(reading->items[k]);
    }
    putchar('"');
}

/* A head, if there is one: a word, or the part, how many parts there are, and the two numbers of their file. */
static void put_head(const ecc200_head *head) {
    if (head->kind == ECC200_PROGRAMMING)
        fputs(",\"head\":\"programming\"", stdout);
    if (head->kind == ECC200_PART)
        printf(",\"head\":[%d,%d,%d,%d]", head->part, head->parts, head->file[0], head->file[1]);
}

/* Marks, if there are any: of each how many items stand before it, and its number. */
static void put_marks(const ecc200_reading *reading) {
    for (int k = 0; k < reading->mark_count; k++)
        printf("%s[%d,%d]", k > 0 ? "," : ",\"marks\":[", (int)reading->marks[k].place, (int)reading->marks[k].number);
    if (reading->mark_count > 0)
        putchar(']');
}

static void put_counts(const char *name, const uint8_t *counts, int count) {
    printf(",\"%s\":[", name);
    for (int k = 0; k < count; k++)
        printf("%s%d", k > 0 ? "," : "", counts[k]);
    putchar(']');
}

static void put_answer(const ecc200_sample *symbol) {
    const ecc200_reading *reading = &symbol->reading;
    if (symbol->unread != ECC200_SAMPLE_READ) {
        bool is_refused = symbol->unread == ECC200_SAMPLE_REFUSED;
        printf("\"refused\":\"%s\"", is_refused ? ecc200_words(reading->fault.code) : "too few corrections unused");
        return;
    }
    fputs("\"message\":", stdout);
    put_message(reading);
    put_head(&reading->head);
    put_marks(reading);
    printf(",\"identifier\":\"]d%d\"", reading->identifier);
    put_counts("corrected", reading->corrected, reading->block_count);
    put_counts("erased", reading->erased, reading->block_count);
    put_counts("left", reading->left, reading->block_count);
    printf(",\"border_faults\":%d,\"border_limit\":%d", reading->border_faults, symbol->border_limit);
}

static void put_grid(const char *name, const ecc200_sample *symbol, const uint8_t *modules) {
    printf(",\"%s\":[", name);
    for (int row = 0; row < symbol->rows; row++) {
        fputs(row > 0 ? ",\"" : "\"", stdout);
        put_row(symbol, modules, row);
        putchar('"');
    }
    putchar(']');
}

/* To four digits; and what is then 0 has no sign. */
static double rounded(double number) {
    return round(number * 1e4) / 1e4 + 0.0;
}

static void put_number(const char *name, double number) {
    printf("\"%s\":%.4f,", name, rounded(number));
}

static void put_numbers(const char *name, const double *numbers, int count) {
    printf("\"%s\":[", name);
    for (int k = 0; k < count; k++)
        printf("%s%.4f", k > 0 ? "," : "", rounded(numbers[k]));
    fputs("],", stdout);
}

static void put_grade(const char *name, int grade, const char *behind) {
    printf("\"%s\":\"%c\"%s", name, "FDCBA"[grade], behind);
}

/* How good the print is, by the names that the command ecc200 has. */
static void put_quality(const ecc200_sample_quality *of) {
    fputs(",\"quality\":{", stdout);
    put_number("contrast", of->contrast);
    put_number("modulation", of->modulation);
    put_numbers("unused", of->unused, of->blocks);
    put_number("axial", of->axial);
    put_number("grid", of->grid);
    put_numbers("growth", of->growth, 2);
    put_numbers("border", of->border, 4);
    put_numbers("quiet", of->quiet, 4);
    printf("\"readable\":[%d,%d,%d,%d],", of->readable[0], of->readable[1], of->readable[2], of->readable[3]);
    printf("\"weakest\":\"%s\",\"grades\":{", of->weakest);
    put_grade("contrast", of->contrast_grade, ",");
    put_grade("modulation", of->modulation_grade, ",");
    put_grade("unused", of->unused_grade, ",");
    put_grade("axial", of->axial_grade, ",");
    put_grade("grid", of->grid_grade, "},\"modulations\":[");
    for (int k = 0; k < of->codewords; k++)
        printf("%s%.4f", k > 0 ? "," : "", (double)of->modulations[k]);
    fputs("]}", stdout);
}

void report_json(const char *file, const ecc200_sample *symbol, const ecc200_sample_quality *quality,
                 bool is_complete) {
    fputs("{\"file\":", stdout);
    put_string(file);
    printf(",\"rows\":%d,\"columns\":%d,\"corners\":[", symbol->rows, symbol->columns);
    for (int k = 0; k < 4; k++)
        printf("%s[%.1f,%.1f]", k > 0 ? "," : "", symbol->corners[k].x, symbol->corners[k].y);
    printf("],\"inverted\":%s,\"mirrored\":%s,", symbol->inverted ? "true" : "false",
           symbol->mirrored ? "true" : "false");
    put_answer(symbol);
    put_grid("grid", symbol, symbol->modules);
    if (has_doubt(symbol))
        put_grid("doubtful", symbol, symbol->doubtful);
    if (quality != NULL)
        put_quality(quality);
    printf(",\"complete\":%s}\n", is_complete ? "true" : "false");
}
