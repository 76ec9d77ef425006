/* The rounds of tests/library/hostile.c, of which each call is written to standard output, with what the library
 * answers, so that the same calls can be put to another build of it: a head, the bytes of the inputs, and those of the
 * output, of which each was FILLED before. */
#define _GNU_SOURCE
#include <ecc200.h>
#include <stdio.h>
#include <stdlib.h>
#include <string.h>

enum { FILLED = 0xee, INPUTS = 3 };

typedef struct input {
    const void *at;
    size_t width; /* bytes of each element; 0 if the call takes no such input */
    size_t count; /* elements */
} input;

typedef struct head {
    char name[20];           /* of the call */
    uint32_t widths[INPUTS]; /* of the inputs */
    uint32_t counts[INPUTS];
    uint32_t is_counted[INPUTS]; /* whether the call is given the count */
    uint32_t number_count;
    uint32_t numbers[5]; /* the call's other arguments, but for the output */
    uint32_t answer;
    uint32_t output_size; /* 0 if the call has none but its answer */
} head;

static void put(const void *bytes, size_t size) {
    if (size && fwrite(bytes, size, 1, stdout) != 1)
        exit(2);
}

static void record(head made, input first, input second, input third, const void *output) {
    const input each[INPUTS] = {first, second, third};
    for (int k = 0; k < INPUTS; k++) {
        made.widths[k] = (uint32_t)each[k].width;
        made.counts[k] = (uint32_t)each[k].count;
    }
    put(&made, sizeof made);
    for (int k = 0; k < INPUTS; k++)
        put(each[k].at, each[k].width * each[k].count);
    put(output, made.output_size);
}

static const input NONE = {NULL, 0, 0};

static uint16_t recorded_read(const uint8_t *modules, size_t count, const uint8_t *doubtful, size_t doubtful_count,
                              const ecc200_scan *scan, ecc200_reading *out) {
    memset(out, FILLED, sizeof *out);
    uint16_t code = ecc200_read(modules, count, doubtful, doubtful_count, scan, out);
    head made = {"ecc200_read", {0}, {0}, {1, 1, 0}, 0, {0}, code, sizeof *out};
    record(made, (input){modules, 1, count}, (input){doubtful, 1, doubtful_count}, (input){scan, sizeof *scan, 1}, out);
    return code;
}

static uint16_t recorded_normal(const uint8_t *modules, size_t count, const uint8_t *doubtful, size_t doubtful_count,
                                const ecc200_scan *scan, uint16_t profile, ecc200_symbol *out) {
    memset(out, FILLED, sizeof *out);
    uint16_t code = ecc200_normal(modules, count, doubtful, doubtful_count, scan, profile, out);
    head made = {"ecc200_normal", {0}, {0}, {1, 1, 0}, 1, {profile}, code, sizeof *out};
    record(made, (input){modules, 1, count}, (input){doubtful, 1, doubtful_count}, (input){scan, sizeof *scan, 1}, out);
    return code;
}

static uint16_t recorded_inspect(const uint8_t *modules, size_t count, const uint8_t *doubtful, size_t doubtful_count,
                                 uint16_t rows, uint16_t columns, ecc200_inspection *out) {
    memset(out, FILLED, sizeof *out);
    uint16_t code = ecc200_inspect(modules, count, doubtful, doubtful_count, rows, columns, out);
    head made = {"ecc200_inspect", {0}, {0}, {1, 1}, 2, {rows, columns}, code, sizeof *out};
    record(made, (input){modules, 1, count}, (input){doubtful, 1, doubtful_count}, NONE, out);
    return code;
}

static uint16_t recorded_write(const uint16_t *items, size_t count, const ecc200_mark *marks, size_t mark_count,
                               const ecc200_how *how, ecc200_symbol *out) {
    memset(out, FILLED, sizeof *out);
    uint16_t code = ecc200_write(items, count, marks, mark_count, how, out);
    head made = {"ecc200_write", {0}, {0}, {1, 1, 0}, 0, {0}, code, sizeof *out};
    record(made, (input){items, 2, count}, (input){marks, sizeof *marks, mark_count}, (input){how, sizeof *how, 1},
           out);
    return code;
}

static uint16_t recorded_write_bytes(const uint8_t *bytes, size_t count, const ecc200_how *how, ecc200_symbol *out) {
    memset(out, FILLED, sizeof *out);
    uint16_t code = ecc200_write_bytes(bytes, count, how, out);
    head made = {"ecc200_write_bytes", {0}, {0}, {1, 0}, 0, {0}, code, sizeof *out};
    record(made, (input){bytes, 1, count}, (input){how, sizeof *how, 1}, NONE, out);
    return code;
}

static uint16_t recorded_usual_limit(uint16_t rows, uint16_t columns) {
    uint16_t limit = ecc200_usual_limit(rows, columns);
    record((head){"ecc200_usual_limit", {0}, {0}, {0}, 2, {rows, columns}, limit, 0}, NONE, NONE, NONE, NULL);
    return limit;
}

static void recorded_sizes(ecc200_size_table *out) {
    ecc200_sizes(out);
    record((head){"ecc200_sizes", {0}, {0}, {0}, 0, {0}, 0, sizeof *out}, NONE, NONE, NONE, out);
}

static uint16_t recorded_places(uint16_t rows, uint16_t columns, ecc200_place_table *out) {
    memset(out, FILLED, sizeof *out);
    uint16_t code = ecc200_places(rows, columns, out);
    record((head){"ecc200_places", {0}, {0}, {0}, 2, {rows, columns}, code, sizeof *out}, NONE, NONE, NONE, out);
    return code;
}

/* What hostile.c says goes to standard error. */
#define printf(...) fprintf(stderr, __VA_ARGS__)
#define ecc200_read recorded_read
#define ecc200_normal recorded_normal
#define ecc200_inspect recorded_inspect
#define ecc200_write recorded_write
#define ecc200_write_bytes recorded_write_bytes
#define ecc200_usual_limit recorded_usual_limit
#define ecc200_sizes recorded_sizes
#define ecc200_places recorded_places
#include "../library/hostile.c"
