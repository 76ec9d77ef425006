/* ecc200_sample.h: finds Data Matrix ECC 200 symbols, square and rectangular, in a picture, and samples them into grids
 * for ecc200.h.
 *
 *     ecc200_sample_picture        the symbols of a picture: grid, corners, reading
 *     ecc200_sample_usual          the usual options
 *     ecc200_sample_find           the same symbols, what was found and not read, and whether the search ended early
 *     ecc200_sample_usual_search   the usual search
 *     ecc200_sample_measure        how good the print of a symbol is
 *     ecc200_sample_other_code     the QR code, Aztec code or bar code that a picture shows
 *     ecc200_sample_abi            which version of this interface the library has
 *
 * An example, for a picture of `width` by `height` bytes, 0 black and 255 white:
 *
 *     static ecc200_sample symbol;
 *     size_t count;
 *     uint16_t code = ecc200_sample_picture(luminance, width, height, width, NULL, &symbol, 1, &count);
 *     if (code == ECC200_SAMPLE_OK && count == 1)
 *         printf("%d by %d modules, %d items\n", symbol.rows, symbol.columns, symbol.reading.item_count);
 *
 *     cc example.c $(pkg-config --cflags --libs ecc200_sample)
 *
 * And one for all symbols, which says whether there may be more:
 *
 *     static ecc200_sample symbols[400], unread[8];
 *     ecc200_sample_search search = ecc200_sample_usual_search();
 *     search.symbols = symbols, search.room = 400, search.unread = unread, search.unread_room = 8;
 *     if (ecc200_sample_find(luminance, width, height, width, &search) == ECC200_SAMPLE_OK)
 *         printf("%zu read, %zu not; %s\n", search.count, search.unread_count,
 *                search.ended == ECC200_SAMPLE_WHOLE ? "that is all" : "there may be more");
 *
 * The library reads no file formats: a PICTURE is its luminance, a byte a pixel, row by row from the top, each row
 * `stride` bytes after the one before. The symbols may be turned by any angle, in perspective, bent, mirrored, or light
 * on dark. A grid comes out upright, as ecc200_read takes it. What a symbol says is read in ECC200_WIDE: beside the
 * items of a message also ECI marks and a head, of structured append or reader programming, in `reading`. Whoever takes
 * the items alone for a message looks first whether `reading.head.kind` and `reading.mark_count` are 0.
 *
 * Finding and sampling are tested, not proved. The sampler tries many candidates, and ecc200_read, which is proved,
 * judges each: the reading is what the grid says. A wrong grid gives no reading or, rarely, a wrong message, as damage
 * to a symbol does; `margin` makes that rarer still.
 *
 * Any number of threads may call at once. A call keeps nothing; it allocates up to ten bytes a pixel, and up to 41 of
 * pictures up to 2 megapixels, and frees them. Without memory it returns NO_MEMORY. */
#ifndef ECC200_SAMPLE_H
#define ECC200_SAMPLE_H

#include <ecc200.h>

#if defined(__cplusplus)
extern "C" {
#endif

/* The version of this interface. It changes when a program that was built with this file would no longer work with the
 * library. */
#define ECC200_SAMPLE_ABI 1

/* The version of the library's interface, to be compared with ECC200_SAMPLE_ABI if the library is loaded at run
 * time. */
uint16_t ecc200_sample_abi(void);

enum {
    ECC200_SAMPLE_MOST_SIDE = 32767,  /* pixels: no picture may be wider or higher */
    ECC200_SAMPLE_USUAL_TIME = 1000   /* milliseconds, where a search is to be limited by the clock */
};
#define ECC200_SAMPLE_ANY_TIME UINT32_MAX   /* for `milliseconds`: the search is limited by its work */
#define ECC200_SAMPLE_ANY_EFFORT UINT16_MAX /* for `effort`: by nothing */

/* What a call returns. */
enum ecc200_sample_code {
    ECC200_SAMPLE_OK = 0,
    ECC200_SAMPLE_PICTURE = 1,        /* width or height is 0 or above ECC200_SAMPLE_MOST_SIDE, or the stride is less
                                         than the width */
    ECC200_SAMPLE_NO_MEMORY = 2,
    ECC200_SAMPLE_SYMBOL = 3          /* what is to be measured is no symbol that was found */
};

/* Why a search ended. But for the first, there may be symbols that weren't found. */
enum ecc200_sample_end {
    ECC200_SAMPLE_WHOLE = 0,          /* all of the picture was searched */
    ECC200_SAMPLE_ROOM = 1,           /* there is no room for more symbols */
    ECC200_SAMPLE_TIME = 2,           /* the time was over */
    ECC200_SAMPLE_WORK = 3            /* so much work was done without finding one more */
};

/* Why a symbol that was found doesn't count as read. */
enum ecc200_sample_unread {
    ECC200_SAMPLE_READ = 0,           /* it does */
    ECC200_SAMPLE_REFUSED = 1,        /* ecc200_read refuses it: reading.fault says why */
    ECC200_SAMPLE_MARGIN = 2          /* a block leaves fewer corrections unused than asked; or none, where the border
                                         is more damaged than usual or modules are doubtful. `reading` is what it may
                                         say */
};

typedef struct ecc200_sample_options {
    uint32_t milliseconds; /* how long to try at most, by the clock. What is being tried is ended, so a call may take a
                              little longer. Or ECC200_SAMPLE_ANY_TIME: then the work is limited that is done until the
                              first symbol is found, and from one to the next, so that the same picture gives the same
                              answer on any machine, however busy */
    uint16_t least_side;              /* symbols with a side of fewer modules are passed over; 0: none is */
    uint16_t margin;      /* how many corrections each block must leave unused, of those that its size allows */
    uint16_t keep_unread; /* not 0: if no symbol is read, the most likely grid that has a symbol's border is given, with
                             its fault */
} ecc200_sample_options;

typedef struct ecc200_sample_point {
    double x, y; /* pixels from the left and from the top edge of the picture: its first pixel's centre is (0.5, 0.5) */
} ecc200_sample_point;

typedef struct ecc200_sample {
    ecc200_sample_point corners[4]; /* of the upright symbol: top left, top right, bottom right, bottom left, where they
                                       are in the picture */
    uint16_t rows, columns;           /* modules */
    uint8_t inverted;               /* 1: the symbol is light on dark in the picture; the grid has its dark modules as 1
                                       all the same */
    uint8_t mirrored;                 /* 1: the picture shows it as in a mirror */
    uint8_t modules[ECC200_MOST_MODULES]; /* row by row: the first rows * columns count */
    uint8_t doubtful[ECC200_MOST_MODULES]; /* likewise: 1 for a module that lies outside of the picture, in a glare,
                                              beyond a torn edge or under a blot, where it wasn't read without knowing
                                              that; else 0 */
    ecc200_reading reading;           /* what ecc200_read says of these modules in ECC200_WIDE: at the usual border
                                         limit, or, if each block leaves a correction unused, at one of
                                         (rows + columns) * 5 / 8 */
    uint16_t border_limit;            /* that limit: with it, `doubtful` and ECC200_WIDE, ecc200_read says the same
                                         again */
    uint16_t unread;                  /* one of ecc200_sample_unread; 0 for what was read */
} ecc200_sample;

/* A search: what is asked, and what came of it. ecc200_sample_usual_search fills it. */
typedef struct ecc200_sample_search {
    uint32_t milliseconds;            /* as in the options */
    uint16_t least_side, margin;      /* as in the options */
    ecc200_sample *symbols;           /* where the symbols that are read go: their number goes into `count` */
    size_t room, count;
    ecc200_sample *unread;            /* where those go that were found and not read, each with the reason, the
                                         likeliest first, one at a place. Their borders have no more faults than usual.
                                         May be NULL if there is no room for any */
    size_t unread_room, unread_count;
    uint16_t ended;                   /* one of ecc200_sample_end */
    uint16_t effort;                  /* if the time is any: how much work may be done, in percent of the usual; 0: the
                                         usual; or ECC200_SAMPLE_ANY_EFFORT */
} ecc200_sample_search;

/* The usual options: the usual work, which takes up to a second if nothing is found, every side, no margin, nothing
 * unread. */
ecc200_sample_options ecc200_sample_usual(void);

/* Finds at most `room` symbols in a picture, writes them into `out` and their number into *count. They are in reading
 * order: row by row from the top, each from the left; and where their rows, or else they all, are turned by about one
 * angle, of at most 45 degrees but for quarter turns, as if that were turned back. With room for one, the search ends
 * with the first; else it goes on until there are `room`, or nothing more is found, or the limit of time or work is
 * reached. `options` may be NULL: the usual ones. Returns PICTURE or NO_MEMORY with a count of 0; otherwise OK, with a
 * count of 0 if there is none. */
uint16_t ecc200_sample_picture(const uint8_t *luminance, size_t width, size_t height, size_t stride,
                               const ecc200_sample_options *options, ecc200_sample *out, size_t room, size_t *count);

/* The usual search: as the usual options have it, with room for nothing yet. */
ecc200_sample_search ecc200_sample_usual_search(void);

/* As ecc200_sample_picture, but that `search` says what is asked and what came of it. After PICTURE or NO_MEMORY both
 * counts are 0. */
uint16_t ecc200_sample_find(const uint8_t *luminance, size_t width, size_t height, size_t stride,
                            ecc200_sample_search *search);

/* How good the print of a symbol is, as ISO/IEC 15415 counts it, but of this picture, uncalibrated: this is no
 * verifier's report, for which light, aperture and calibration are given. Luminance is taken for reflectance, 255 for
 * all of it. A grade is 4 for A to 0 for F. docs/PICTURES.md says how large the errors are. */
typedef struct ecc200_sample_quality {
    double contrast;                  /* the largest less the smallest reflectance, of modules and quiet zone: 0 to 1 */
    double modulation;                /* the least of all codewords */
    double unused[ECC200_MOST_BLOCKS]; /* of each block, the share of its check codewords that neither errors, of which
                                         each takes two, nor erasures use; 0 where the symbol isn't read */
    double axial;                     /* nonuniformity: how much the mean width and height of modules differ, as a
                                         share */
    double grid;                      /* nonuniformity: how far the worst module lies beside an even grid, in modules,
                                         if that is no more than half a module */
    double growth[2];                 /* how much wider, and higher, dark modules are than they should be, in modules */
    double border[4];                 /* the share of modules of a side of the border with a wrong colour, or doubtful:
                                         at the top, on the right, below and on the left */
    double quiet[4];                  /* the share of the quiet zone, one module wide, that is dark or isn't in the
                                         picture, beside each side */
    uint16_t codewords, blocks;       /* how many there are */
    uint16_t readable[4];             /* how many codewords have a modulation of .5, .4, .3 and .2, or more */
    uint8_t contrast_grade, modulation_grade, unused_grade, axial_grade, grid_grade; /* of modulations and unused error
                                         correction the lowest of the blocks */
    char weakest[64];                 /* the weakest place in words: the longest run of damage on the border or in the
                                         quiet zone, as "the left border, rows 3 to 6"; else the weakest codeword, or
                                         "nothing is weak" where all have .5 or more and none was corrected */
    float modulations[ECC200_MOST_CODEWORDS]; /* of each codeword, that of its weakest module: how far its reflectance
                                         is from the middle, as a share of half the contrast */
} ecc200_sample_quality;

/* Measures a symbol that was found in this picture. Returns OK; PICTURE or NO_MEMORY; or SYMBOL if it can't have been
 * found: then all numbers are 0. */
uint16_t ecc200_sample_measure(const uint8_t *luminance, size_t width, size_t height, size_t stride,
                               const ecc200_sample *symbol, ecc200_sample_quality *out);

/* The code of another kind that a picture shows clearly, for who found no symbol in it: "a QR code", "an Aztec code",
 * "a PDF417 code", or "a bar code", which is Code 128, 93 or 39, EAN, UPC-A or Interleaved 2 of 5. QR codes and Aztec
 * codes may be turned by any angle, the others by quarters. Then `corners` are where it lies, going around it. NULL if
 * there is none, no memory, or a size that isn't sampled. */
const char *ecc200_sample_other_code(const uint8_t *luminance, size_t width, size_t height, size_t stride,
                                     ecc200_sample_point corners[4]);

#if defined(__cplusplus)
}
#endif
#endif
