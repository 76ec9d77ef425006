/* What the border of each size looks like, with the alignment patterns inside. */
#ifndef LAYOUT_H
#define LAYOUT_H

#include <ecc200.h>
#include <stdbool.h>
#include <stdint.h>

enum {
    MOST_SIDE = ECC200_MOST_COLUMNS, /* as many as rows */
    MOST_MODULES = ECC200_MOST_MODULES,
    MOST_SHAPES = 2 * ECC200_SIZE_COUNT,
    LIGHT = 0,
    DARK = 1,
    UNKNOWN = 2,
    MOST_WITNESSES = 3072,
    MOST_BORDER = 3312 /* of 144 by 144 */
};

/* Modules each way: columns and rows. */
struct extent {
    int wide, high;
};

static inline bool is_square(struct extent extent) {
    return extent.wide == extent.high;
}

/* Half of both: a square's side. */
static inline double mean_side(struct extent extent) {
    return (extent.wide + extent.high) / 2.0;
}

static inline int longer_side(struct extent extent) {
    return extent.wide > extent.high ? extent.wide : extent.high;
}

static inline int shorter_side(struct extent extent) {
    return extent.wide < extent.high ? extent.wide : extent.high;
}

/* An edge between two modules of known and different colours, of which one may lie outside the symbol; or a place where
 * there may be one. */
struct witness {
    float x, y;          /* the middle of the edge */
    int8_t is_upright;   /* 1: an edge along y, whose place is its x; 0: one along x */
    int8_t darkens;      /* DARK: what follows, to the right or below, is dark; LIGHT: it is light;
                            UNKNOWN: either, or there is no edge */
};

/* A shape in which a symbol is seen, upright, its solid border on the left and below: that of a size, or of a rectangle
 * in a mirror, which is as high as the rectangle is wide. A square is the same in a mirror. */
struct layout {
    struct extent extent, region; /* `region` with its border */
    int checks;                   /* check codewords of each block */
    bool is_mirrored;             /* whether only a mirror shows it so */
    uint8_t colour[MOST_MODULES]; /* LIGHT, DARK, UNKNOWN: row by row */
    uint16_t border[MOST_BORDER]; /* which modules are the border's, with the alignment patterns */
    int border_count;
    struct witness witnesses[MOST_WITNESSES];
    int witness_count;
};

/* All shapes, and the layouts of those that were asked for. */
struct layouts {
    struct extent shapes[MOST_SHAPES]; /* first the squares by their sides, then the rectangles */
    int count, squares;
    struct layout *made[MOST_SHAPES];
};

/* Lists the shapes. */
void list_shapes(struct layouts *out);

/* The layout of a shape, made at the first call; NULL if there is no memory, or no such shape. */
const struct layout *layout_of(struct layouts *layouts, struct extent shape);
void layouts_free(struct layouts *layouts);

/* Columns and rows of modules from `first` up to, not including, `last`. */
struct part {
    int first_x, last_x, first_y, last_y;
};

/* Makes a layout of the places between modules of a part of a lattice, as many of them as there is room for, evenly:
 * nothing is known of its modules. */
void lay_out_places(struct layout *layout, struct part part);

/* The colour of a module; outside, where the quiet zone is, LIGHT. */
int colour_at(const struct layout *layout, int x, int y);

/* The modules as a mirror on the diagonal from the upper left shows them that leaves the solid border on the left and
 * below; from rows of extent.wide modules to rows of extent.high. */
void mirror_modules(const uint8_t *from, struct extent extent, uint8_t *to);

#endif
