#include "layout.h"

#include <stdlib.h>

static void add_shape(struct layouts *out, int wide, int high) {
    out->shapes[out->count++] = (struct extent){wide, high};
}

void list_shapes(struct layouts *out) {
    ecc200_size_table table;
    ecc200_sizes(&table);
    *out = (struct layouts){.count = 0};
    for (int k = 0; k < ECC200_SIZE_COUNT; k++)
        if (table.sizes[k].rows == table.sizes[k].columns)
            add_shape(out, table.sizes[k].columns, table.sizes[k].rows);
    out->squares = out->count;
    for (int k = 0; k < ECC200_SIZE_COUNT; k++) {
        const ecc200_size *size = &table.sizes[k];
        if (size->rows != size->columns)
            add_shape(out, size->columns, size->rows), add_shape(out, size->rows, size->columns);
    }
}

int colour_at(const struct layout *layout, int x, int y) {
    bool inside = x >= 0 && y >= 0 && x < layout->extent.wide && y < layout->extent.high;
    return inside ? layout->colour[y * layout->extent.wide + x] : LIGHT;
}

void mirror_modules(const uint8_t *from, struct extent extent, uint8_t *to) {
    for (int y = 0; y < extent.high; y++)
        for (int x = 0; x < extent.wide; x++)
            to[(extent.wide - 1 - x) * extent.high + extent.high - 1 - y] = from[y * extent.wide + x];
}

static void add_witness(struct layout *layout, double x, double y, bool is_upright, int before, int after) {
    if (before == UNKNOWN || after == UNKNOWN || before == after || layout->witness_count == MOST_WITNESSES)
        return;
    layout->witnesses[layout->witness_count++] = (struct witness){(float)x, (float)y, is_upright, after == DARK};
}

static void find_witnesses(struct layout *layout) {
    for (int y = 0; y <= layout->extent.high; y++)
        for (int x = 0; x <= layout->extent.wide; x++) {
            int here = colour_at(layout, x, y);
            if (y < layout->extent.high)
                add_witness(layout, x, y + 0.5, true, colour_at(layout, x - 1, y), here);
            if (x < layout->extent.wide)
                add_witness(layout, x + 0.5, y, false, colour_at(layout, x, y - 1), here);
        }
}

void lay_out_places(struct layout *layout, struct part part) {
    int wide = part.last_x - part.first_x, high = part.last_y - part.first_y,
        every = 2 * wide * high / MOST_WITNESSES + 1, seen = 0;
    layout->extent = layout->region = (struct extent){wide, high};
    layout->witness_count = 0;
    for (int y = 0; y <= high; y++)
        for (int x = 0; x <= wide; x++)
            for (int is_upright = 0; is_upright < 2; is_upright++) {
                bool is_inside = is_upright ? y < high : x < wide;
                if (!is_inside || seen++ % every > 0 || layout->witness_count == MOST_WITNESSES)
                    continue;
                float right = (float)(part.first_x + x + (is_upright ? 0 : 0.5)),
                      down = (float)(part.first_y + y + (is_upright ? 0.5 : 0));
                layout->witnesses[layout->witness_count++] = (struct witness){right, down, (int8_t)is_upright, UNKNOWN};
            }
}

/* The row of the table for a shape, as it is or in a mirror. */
static ecc200_size size_of(struct extent shape, bool *is_mirrored) {
    ecc200_size_table table;
    ecc200_size size = {0};
    ecc200_sizes(&table);
    for (int k = 0; k < ECC200_SIZE_COUNT; k++) {
        const ecc200_size *row = &table.sizes[k];
        bool is_plain = row->columns == shape.wide && row->rows == shape.high;
        if (is_plain || (row->rows == shape.wide && row->columns == shape.high))
            size = *row, *is_mirrored = !is_plain;
    }
    return size;
}

/* Takes what each module is, row by row. */
static void take_kinds(const uint8_t *kinds, struct layout *layout) {
    static const uint8_t colours[] = {
        [ECC200_NO_MODULE] = UNKNOWN, [ECC200_BIT] = UNKNOWN,       [ECC200_BORDER_LIGHT] = LIGHT,
        [ECC200_BORDER_DARK] = DARK,  [ECC200_FIXED_LIGHT] = LIGHT, [ECC200_FIXED_DARK] = DARK};
    for (int k = 0; k < layout->extent.wide * layout->extent.high; k++) {
        layout->colour[k] = colours[kinds[k]];
        if (kinds[k] == ECC200_BORDER_LIGHT || kinds[k] == ECC200_BORDER_DARK)
            layout->border[layout->border_count++] = (uint16_t)k;
    }
}

static struct layout *make_layout(struct extent shape) {
    struct layout *layout = calloc(1, sizeof *layout);
    ecc200_place_table *table = malloc(sizeof *table);
    uint8_t *kinds = malloc(2 * MOST_MODULES), *mirrored = kinds + MOST_MODULES;
    bool is_mirrored = false;
    ecc200_size size = size_of(shape, &is_mirrored);
    if (layout != NULL && table != NULL && kinds != NULL &&
        ecc200_places(size.rows, size.columns, table) == ECC200_OK) {
        struct extent plain = {size.columns, size.rows}, region = {size.region_columns + 2, size.region_rows + 2};
        for (int k = 0; k < plain.wide * plain.high; k++)
            kinds[k] = table->places[k].kind;
        if (is_mirrored)
            mirror_modules(kinds, plain, mirrored);
        layout->extent = shape, layout->is_mirrored = is_mirrored;
        layout->region = is_mirrored ? (struct extent){region.high, region.wide} : region;
        layout->checks = size.check_codewords / size.blocks;
        take_kinds(is_mirrored ? mirrored : kinds, layout);
        find_witnesses(layout);
    } else {
        free(layout);
        layout = NULL;
    }
    free(table);
    free(kinds);
    return layout;
}

const struct layout *layout_of(struct layouts *layouts, struct extent shape) {
    for (int k = 0; k < layouts->count; k++)
        if (layouts->shapes[k].wide == shape.wide && layouts->shapes[k].high == shape.high)
            return layouts->made[k] != NULL ? layouts->made[k] : (layouts->made[k] = make_layout(shape));
    return NULL;
}

void layouts_free(struct layouts *layouts) {
    for (int k = 0; k < layouts->count; k++)
        free(layouts->made[k]);
    *layouts = (struct layouts){.count = 0};
}
