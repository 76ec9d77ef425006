/* ecc200.h: Data Matrix ECC 200, the symbols of all 48 sizes: the squares and rectangles of ISO/IEC 16022, and the
 * rectangles of ISO/IEC 21471 (rectangular extension, DMRE).
 *
 *     ecc200_read           what a symbol says, and how much of it was wrong
 *     ecc200_write          the symbol of what is to be said, in a size of the caller's choice
 *     ecc200_write_bytes    the same for bytes alone
 *     ecc200_normal         the normal grid of what a symbol says
 *     ecc200_inspect        the codewords that a symbol holds, and what they are corrected to
 *     ecc200_places         what each module of a symbol is: the bit of a codeword, border, or fixed square
 *     ecc200_sizes          the table of sizes and limits
 *     ecc200_usual_limit    how many wrong border modules are usually accepted
 *     ecc200_abi            which version of this interface the library has
 *     ecc200_version        which version of the library this is
 *     ecc200_code_words     a code in words
 *
 * An example, which writes a symbol, prints it, turns a module over, and reads it:
 *
 *     #include <ecc200.h>
 *     #include <stdio.h>
 *
 *     int main(void) {
 *         static ecc200_symbol symbol;
 *         static ecc200_reading reading;
 *         const uint16_t items[] = {'1', '2', '3', '4', '5', '6'};
 *         const ecc200_how how = {.form = ECC200_SMALLEST};
 *         if (ecc200_write(items, 6, NULL, 0, &how, &symbol) != ECC200_OK)
 *             return 1;
 *         for (int row = 0; row < symbol.rows; row++, puts(""))
 *             for (int column = 0; column < symbol.columns; column++)
 *                 fputs(symbol.modules[row * symbol.columns + column] ? "##" : "  ", stdout);
 *         symbol.modules[11] ^= 1;
 *         const ecc200_scan scan = {.rows = 10, .columns = 10};
 *         if (ecc200_read(symbol.modules, 100, NULL, 0, &scan, &reading) != ECC200_OK)
 *             return 2;
 *         printf("%d items, %d codeword corrected\n", reading.item_count, reading.corrected[0]);
 *     }
 *
 *     cc example.c $(pkg-config --cflags --libs ecc200)
 *
 * MODULES are bytes, row by row from the top and each row from the left, `rows` rows of `columns` bytes, without a
 * quiet zone. On input 0 is light and anything else is dark; on output a module is 0 or 1. A symbol stands upright: the
 * solid column is on the left, the solid row at the bottom. The module in row r and column c, both counted from 0, is
 * modules[r * columns + c].
 *
 * DOUBTFUL modules are those of which a caller knows that their colours tell nothing: a blot, a glare, a torn corner, a
 * weak dot. They are given beside the modules as as many bytes, 0 where a module isn't doubtful and anything else where
 * it is; or not at all, as NULL and 0, where none is. A codeword is erased if one of its eight modules is doubtful. A
 * border module that is doubtful is never counted as wrong.
 *
 * ITEMS make up a message: 0 to 255 is that byte, ECC200_FNC1 is the function character FNC1. None is interpreted. A
 * GS1 message has ECC200_FNC1 first and another, or more rarely the byte 0x1D, between its fields. ecc200_text and
 * ecc200_items, below, turn items into bytes and back.
 *
 * MARKS say how the items behind them are meant: a mark is the number of an ECI assignment, 0 to 999999 (26 is UTF-8,
 * for example), at a place, which is how many items stand before it. Marks come in order, and several may stand at one
 * place. None is interpreted.
 *
 * A HEAD says that a symbol is one part of what several say together (structured append), or that it programs the
 * reader (reader programming). What a symbol says is its head or none, its items, and its marks. Without head and marks
 * it is a message. Heads and marks are read and written in the extent ECC200_WIDE alone: ECC200_USUAL refuses them.
 *
 * A PROFILE chooses the normal form of what a symbol says, and so its normal grid, the one by which it is compared.
 * Under ECC200_ASCII the codewords are those of ASCII encodation: of the head, then of the items, with each mark at its
 * place. Under ECC200_SHORTER they are those of one Base 256 segment where there is no head, mark or FNC1 and the
 * segment is shorter, which serves binary messages. Either way they stand in the smallest square that holds them,
 * followed by pads; what no square holds in this form has no normal grid. Symbols that have normal grids under one
 * profile say the same exactly if these are equal, byte by byte; and a normal grid is its own normal grid, in an extent
 * that can say it.
 *
 * THE IDENTIFIER of a reading is the symbology identifier of ISO/IEC 15424: ]d and a digit. 1 is the usual one; 2 says
 * that the first codeword behind the head is FNC1, as in GS1 symbols, 3 that the second one is; 4, 5 and 6 are the same
 * where there are marks. It belongs to the codewords that were printed, and equal normal grids say nothing of it: a GS1
 * symbol and one that says the same items with another identifier have equal normal grids, and so compare as equal.
 * Where that matters compare the identifiers too.
 *
 * EACH CALL returns, whatever it is given, and touches only what it was given. It allocates nothing and uses less than
 * ECC200_STACK bytes of stack, keeps nothing, waits for nothing, and calls nothing but memcpy, memmove and memset: any
 * number of threads may call at once, each with an `out` of its own.
 *
 * WHAT IS WRITTEN: each call writes `fault`, the numbers of rows and columns, and all counts, whatever `out` held
 * before, and the elements of arrays that count. Elements past those are left as they were. If there is a fault,
 * everything but `fault` and the arrays is 0, and the arrays are left as they were; if there is none, `fault` is 0. A
 * call whose `out` has a member `fault` returns its code.
 *
 * PROCESSORS: the library is made for x86-64, and also for 64-bit ARM and RISC-V under Linux and for x86-64 under
 * Windows. Of x86-64 processors it needs the level x86-64-v2, which has SSSE3 and SSE4.2 among others, as those made
 * since 2009 mostly do. On an older one glibc's loader, from 2.33 on, refuses the shared library and programs that are
 * linked with it ("CPU ISA level is lower than required"); without such a loader an illegal instruction ends the
 * program. Under Windows a call also calls what touches a large frame page by page, as all programs there do.
 *
 * WHAT A CALLER OWES, since C can't check it:
 *  - a pointer points to as many elements as the call says, aligned for their type. It may be NULL if the count is 0;
 *    `scan`, `how` and `out` may not;
 *  - `out` overlaps no input, and during the call nobody else writes either of them or reads `out`.
 *
 * WHAT IS PROVED, for every call whose caller does what is owed: that it returns, that it touches nothing but its
 * arguments and its stack, and all that comes out, in `out` and as the value returned, as "What is written" and the
 * declarations below say it. It is proved of the functions as they are written in crates/ecc200, and of nothing in this
 * list:
 *  - that this file declares what was proved, and that a compiler makes of both what they say: tested;
 *  - the bound on the stack, and which functions are called: tested, on the library as it is built;
 *  - that threads may call at once: it follows from what is proved and from nothing being kept, and is tested;
 *  - ecc200_version, ecc200_code_words and the functions under "Conveniences", which are in C: tested;
 *  - how often a symbol with too much damage is refused, and not read as another message: no one can promise it.
 * docs/LIBRARY.md says how it is proved, and what is trusted. */
#ifndef ECC200_H
#define ECC200_H

#include <stddef.h>
#include <stdint.h>

#if defined(__cplusplus)
#define ECC200_RESTRICT __restrict
#define ECC200_ASSERT(condition) static_assert(condition, #condition)
#define ECC200_CAST(type, value) static_cast<type>(value)
#define ECC200_SIZE_OF(type, member) sizeof(type::member)
extern "C" {
#else
#define ECC200_RESTRICT restrict
#define ECC200_ASSERT(condition) _Static_assert(condition, #condition)
#define ECC200_CAST(type, value) ((type)(value))
#define ECC200_SIZE_OF(type, member) sizeof(((type *)0)->member)
#endif

/* One byte, so that a value of the type is passed as an argument of 16 bits, or kept in a member of 8, without a
 * warning. */
#if defined(__GNUC__)
#define ECC200_SMALL __attribute__((__packed__))
#else
#define ECC200_SMALL
#endif

/* The version of this interface. It changes when a program that was built with this file would no longer work with the
 * library. */
#define ECC200_ABI 1

/* The version of the library's interface, to be compared with ECC200_ABI if the library is loaded at run time. */
uint16_t ecc200_abi(void);

/* The version of the library, by Semantic Versioning: docs/LIBRARY.md says what may change with which number. */
#define ECC200_VERSION "1.0.0"

/* The same of the library that is linked or loaded. */
const char *ecc200_version(void);

enum {
    ECC200_MOST_ROWS = 144,       /* modules */
    ECC200_MOST_COLUMNS = 144,
    ECC200_MOST_MODULES = 20736,
    ECC200_MOST_ITEMS = 3123,     /* no symbol says more items */
    ECC200_MOST_MARKS = 779,      /* nor more marks */
    ECC200_MOST_CODEWORDS = 2178, /* data and check codewords together */
    ECC200_MOST_BLOCKS = 10,
    ECC200_SIZE_COUNT = 48,
    ECC200_FNC1 = 256,            /* an item */
    ECC200_BEYOND = 255,          /* in ecc200_inspection.corrected: this block is beyond correction */
    ECC200_STACK = 49152          /* bytes */
};

/* What is read, and for whose readers something is written. USUAL: ASCII, C40, Text, X12 and Base 256, as the program
 * reads. WIDE: these, and
 *  - EDIFACT (240);
 *  - a macro 05 (236) or 06 (237) as the first codeword, or behind nothing but empty runs of C40, Text or X12, which
 *    stands for the header [)> RS 0 5 GS or [)> RS 0 6 GS and the trailer RS EOT; the places of marks count the header;
 *  - runs of C40 and Text in which an Upper Shift waits where they end;
 *  - marks: ECI (241) and its designator, in ASCII encodation;
 *  - heads: structured append (233) or reader programming (234) as the first codeword; with a head there is no macro;
 *  - the other dealing of 144 x 144, in which many encoders deal the check codewords anew from the first block, where a
 *    block is beyond correction by the standard's, and none by that one.
 * What USUAL reads WIDE reads as the same, with the same corrections. */
enum ECC200_SMALL ecc200_extent {
    ECC200_WIDE = 0,
    ECC200_USUAL = 1
};

/* The normal form of what is said. */
enum ECC200_SMALL ecc200_profile {
    ECC200_ASCII = 0,
    ECC200_SHORTER = 1
};

/* The form in which something is written: a profile, or this. */
enum ECC200_SMALL ecc200_form {
    ECC200_SMALLEST = 2 /* in the encodations that take the smallest size that may be taken */
};

/* The sizes among which a symbol that is written may have the smallest that holds it: the one with the fewest modules
 * and, of those with as many, the one with the fewest columns. */
enum ECC200_SMALL ecc200_shape {
    ECC200_SQUARE = 0,    /* the 24 squares */
    ECC200_RECTANGLE = 1, /* the 6 rectangles of ISO/IEC 16022 */
    ECC200_EXTENDED = 2,  /* these and the 18 rectangles of ISO/IEC 21471 */
    ECC200_ANY = 3,       /* all 48 sizes */
    ECC200_ONE = 4        /* the size with the rows and columns that are given, and no other */
};

/* ---- Faults */

/* What a call returns, and puts into fault.code. `value` and `place` are 0 unless they are mentioned. */
enum ECC200_SMALL ecc200_code {
    ECC200_OK = 0,

    /* The modules make no symbol. */
    ECC200_SHAPE = 3, /* count isn't rows * columns */
    ECC200_SIZE = 4,  /* no size has these rows and columns; value: the rows; place: the columns */

    /* The symbol isn't read. `place` counts the data codewords of the symbol from 1. */
    ECC200_BORDER = 5,      /* more border modules that aren't doubtful have the wrong colour than the limit allows;
                               value: how many have */
    ECC200_BLOCK = 6,       /* a block is damaged beyond correction; place: the first such block, from 0 */
    ECC200_RESERVED = 7,    /* a codeword that ASCII encodation doesn't use: 0, or 242 to 255; place: where it stands */
    ECC200_LEFT_OUT = 8,    /* value: a codeword that begins something that isn't read; place: where it stands. USUAL:
                               structured append (233), reader programming (234), macro 05 (236), macro 06 (237),
                               EDIFACT (240) or ECI (241). WIDE: 233, 234, 236 or 237 where none of them is read */
    ECC200_UPPER_SHIFT = 9, /* something other than a character follows an Upper Shift; place: that of the Upper Shift,
                               or, in a run of C40 or Text, that of the pair that holds it */
    ECC200_TRIPLET = 10,    /* two codewords of C40, Text or X12 that don't stand for three values; place: that of the
                               first */
    ECC200_VALUE = 11,      /* a value of C40 or Text that has no meaning after a shift; place: that of its codewords */
    ECC200_LENGTH = 12,     /* a Base 256 length that is missing, ill-formed, or too large; place: that of the latch */
    ECC200_UNFINISHED = 13, /* the symbol ends before the character of an Upper Shift, or, USUAL, the run does; place:
                               as for UPPER_SHIFT */

    /* The message isn't written. */
    ECC200_TOO_LONG = 14, /* no size that may be taken holds the message */
    ECC200_ITEM = 15,     /* an item above 256; value: the item; place: its index from 0, or 65535 if that is larger */

    /* An argument stands for nothing. */
    ECC200_PROFILE = 16, /* a profile above 1, or a form above 2; value: the profile, or the form */
    ECC200_EXTENT = 17,  /* an extent above 1; value: the extent */
    ECC200_CHOICE = 18,  /* a shape above 4; value: the shape */
    ECC200_DOUBT = 19,   /* doubtful_count is neither 0 nor rows * columns */

    /* WIDE: the symbol isn't read. */
    ECC200_DESIGNATOR = 20, /* what follows ECI (241) is no designator of a number; place: where the 241 stands */
    ECC200_APPEND = 21,     /* what follows structured append (233) as the first codeword is no part of a file; place:
                               1 */

    /* What stands beside the items isn't written. */
    ECC200_MARK = 22, /* a mark with a number above 999999, with a place below that of the mark before it, or above
                         the number of items; place: its index from 0, or 65535 if that is larger */
    ECC200_HEAD = 23, /* a head of no kind that there is, or with numbers that its kind doesn't have */

    /* An argument stands for nothing. */
    ECC200_LIMIT = 24 /* a limit above 3; value: the limit */
};

typedef struct ecc200_fault {
    uint16_t code;
    uint16_t value;
    uint16_t place;
} ecc200_fault;

/* ---- Reading */

/* How many border modules that aren't doubtful may have the wrong colour. */
enum ECC200_SMALL ecc200_limit {
    ECC200_USUAL_LIMIT = 0, /* as many as ecc200_usual_limit says */
    ECC200_SURE_LIMIT = 1,  /* any number where each block leaves a correction unused, two of its check codewords, which
                               shows that it is a symbol; else as many as usual */
    ECC200_ANY_LIMIT = 2,   /* any number */
    ECC200_GIVEN_LIMIT = 3  /* as many as are given */
};

/* How a symbol is read. All 0 but the rows and columns: with the usual limit, in ECC200_WIDE. */
typedef struct ecc200_scan {
    uint16_t rows;
    uint16_t columns;
    uint16_t limit;        /* an ecc200_limit: how many border modules may have the wrong colour */
    uint16_t border_limit; /* for ECC200_GIVEN_LIMIT, how many; else of no account */
    uint16_t extent;       /* an ecc200_extent: what is read */
} ecc200_scan;

/* What a head is. */
enum ECC200_SMALL ecc200_head_kind {
    ECC200_NO_HEAD = 0,
    ECC200_PART = 1,       /* one part of what several symbols say together (structured append) */
    ECC200_PROGRAMMING = 2 /* it programs the reader (reader programming) */
};

typedef struct ecc200_head {
    uint16_t kind;   /* an ecc200_head_kind; all else is 0 but for ECC200_PART */
    uint16_t part;   /* which part it is, 1 to `parts` */
    uint16_t parts;  /* how many there are, 2 to 16 */
    uint8_t file[2]; /* what all parts have in common, 1 to 254 each: the file identification */
} ecc200_head;

typedef struct ecc200_mark {
    uint32_t number; /* of an ECI assignment, 0 to 999999 */
    uint32_t place;  /* how many items stand before it */
} ecc200_mark;

typedef struct ecc200_reading {
    ecc200_fault fault;
    uint16_t rows;
    uint16_t columns;
    uint16_t border_faults;                /* how many border modules that aren't doubtful have the wrong colour */
    uint16_t block_count;                  /* 1 to ECC200_MOST_BLOCKS: the first block_count elements of `corrected`,
                                              `erased` and `left` count */
    uint16_t item_count;                   /* 0 to ECC200_MOST_ITEMS */
    uint16_t mark_count;                   /* 0 to ECC200_MOST_MARKS */
    uint16_t identifier;                   /* 1 to 6: the symbology identifier is ]d and this digit */
    uint16_t dealing;                      /* 0: the codewords are dealt into blocks as the standard has it; 1: by the
                                              other dealing of 144 x 144 */
    ecc200_head head;
    uint8_t corrected[ECC200_MOST_BLOCKS]; /* for each block, how many of its codewords were corrected, those not
                                              counted that are erased */
    uint8_t erased[ECC200_MOST_BLOCKS];    /* for each block, how many of its codewords are erased */
    uint8_t left[ECC200_MOST_BLOCKS];      /* for each block, how many of its check codewords neither have used, of
                                              which a correction uses two and an erasure one */
    ecc200_mark marks[ECC200_MOST_MARKS];  /* the first mark_count count */
    uint16_t items[ECC200_MOST_ITEMS];     /* the first item_count count */
} ecc200_reading;

/* Reads a symbol, as `scan` says. A block with k check codewords is restored if twice the number of its wrong
 * codewords and the number of its erased ones are together at most k: with no module doubtful, if at most `limit` of
 * its codewords are wrong (ecc200_sizes). Neither the fixed square nor what follows the first pad is looked at.
 * A symbol with more damage than that is refused, unless it has come near the codewords of another message, and is then
 * read as that message. If a wrong message is worse than none, refuse a symbol in which little of a block is `left`:
 * where codewords are erased and nothing is left, a block is read whatever it held.
 * Returns the first fault that applies: EXTENT, LIMIT, SHAPE, SIZE, DOUBT, BORDER, BLOCK, the one of APPEND, RESERVED
 * to UNFINISHED and DESIGNATOR whose codewords come first. */
uint16_t ecc200_read(const uint8_t *ECC200_RESTRICT modules, size_t count, const uint8_t *ECC200_RESTRICT doubtful,
                     size_t doubtful_count, const ecc200_scan *ECC200_RESTRICT scan,
                     ecc200_reading *ECC200_RESTRICT out);

/* The sum of the rows and the columns, divided by 8 and rounded down: a quarter of the side of a square. */
uint16_t ecc200_usual_limit(uint16_t rows, uint16_t columns);

/* ---- Writing and normalising */

/* How something is written. All 0: in ASCII encodation, in the smallest square, without a head. */
typedef struct ecc200_how {
    uint16_t form;    /* an ecc200_profile, or ECC200_SMALLEST: which codewords are chosen */
    uint16_t shape;   /* an ecc200_shape: which sizes may be taken */
    uint16_t rows;    /* for ECC200_ONE, the rows of the size; else of no account */
    uint16_t columns; /* for ECC200_ONE, the columns of the size; else of no account */
    uint16_t extent;  /* for ECC200_SMALLEST, an ecc200_extent: what its readers read; else of no account */
    ecc200_head head;
} ecc200_how;

typedef struct ecc200_symbol {
    ecc200_fault fault;
    uint16_t rows;
    uint16_t columns;
    uint8_t modules[ECC200_MOST_MODULES]; /* the first rows * columns count */
} ecc200_symbol;

/* Writes items with marks and the head in `how`: in the codewords of the form, followed by pads, in the smallest size
 * that may be taken and holds them. ecc200_read reads it as that, with nothing corrected, in ECC200_WIDE, and a message
 * that isn't in ECC200_SMALLEST for readers of ECC200_WIDE also in ECC200_USUAL.
 *
 * Where the form is a profile, and ECC200_SQUARE the shape, it is the normal grid. In ECC200_SMALLEST no codewords that
 * the extent has say the same in a smaller size of those that may be taken, but for such as have a macro before FNC1,
 * which would be the second codeword there. Of those that do in this size, it is those of ASCII encodation where these
 * are enough; else some that ECC200_USUAL reads, where there are any; which of these isn't promised. A head or a mark
 * can't be said to readers of ECC200_USUAL, so for them it is TOO_LONG.
 *
 * In each form the codewords are plain: no run or segment says nothing, no run has a filler or an Upper Shift that
 * waits, and a macro is the first codeword. And their identifier is that of the ASCII form: FNC1 in front is the first
 * codeword, by which readers know GS1.
 *
 * Returns the first fault that applies: PROFILE, EXTENT, CHOICE, HEAD, ITEM, MARK, TOO_LONG. Where no size has the rows
 * and columns of ECC200_ONE, the fault is TOO_LONG too. */
uint16_t ecc200_write(const uint16_t *ECC200_RESTRICT items, size_t count, const ecc200_mark *ECC200_RESTRICT marks,
                      size_t mark_count, const ecc200_how *ECC200_RESTRICT how, ecc200_symbol *ECC200_RESTRICT out);

/* Writes bytes, each of which is an item, without marks: what ecc200_write does for the same numbers.
 * Returns the first fault that applies: PROFILE, EXTENT, CHOICE, HEAD, TOO_LONG. */
uint16_t ecc200_write_bytes(const uint8_t *ECC200_RESTRICT bytes, size_t count, const ecc200_how *ECC200_RESTRICT how,
                            ecc200_symbol *ECC200_RESTRICT out);

/* Writes the normal grid of what a symbol says, read as `scan` says, whatever its size and encodation, and whatever
 * damage was corrected. `profile`: an ecc200_profile.
 * Returns the first fault that applies: EXTENT, LIMIT, PROFILE, those of ecc200_read, TOO_LONG. */
uint16_t ecc200_normal(const uint8_t *ECC200_RESTRICT modules, size_t count, const uint8_t *ECC200_RESTRICT doubtful,
                       size_t doubtful_count, const ecc200_scan *ECC200_RESTRICT scan, uint16_t profile,
                       ecc200_symbol *ECC200_RESTRICT out);

/* ---- Showing and mending */

typedef struct ecc200_inspection {
    ecc200_fault fault;
    uint16_t rows;
    uint16_t columns;
    uint16_t border_faults;                /* how many border modules that aren't doubtful have the wrong colour */
    uint16_t block_count;                  /* 1 to ECC200_MOST_BLOCKS */
    uint16_t codeword_count;               /* of the whole symbol, 8 to ECC200_MOST_CODEWORDS: data codewords and then
                                              check codewords */
    uint16_t dealing;                      /* as ecc200_reading has it: that by which no block is beyond correction, or
                                              else 0 */
    uint16_t designator_count;             /* 0 to ECC200_MOST_MARKS; 0 where a block is beyond correction, and where
                                              WIDE reads nothing of the mended data codewords */
    ecc200_mark designators[ECC200_MOST_MARKS]; /* the first designator_count count: the number of an ECI assignment,
                                                   and as its place how many codewords stand before its ECI, 241,
                                                   behind which its one to three codewords stand. A 241 in a head, a
                                                   run, a segment or a designator, or behind the first pad, is none of
                                                   these */
    uint8_t corrected[ECC200_MOST_BLOCKS]; /* for each block, what ecc200_reading has, or ECC200_BEYOND */
    uint8_t erased[ECC200_MOST_BLOCKS];    /* the same, or 0 where the block is beyond correction */
    uint8_t left[ECC200_MOST_BLOCKS];      /* the same, or 0 where the block is beyond correction */
    uint8_t held[ECC200_MOST_CODEWORDS];   /* the codewords as they stand in the symbol */
    uint8_t mended[ECC200_MOST_CODEWORDS]; /* the same with each block corrected; a block beyond correction is left as
                                              it is */
} ecc200_inspection;

/* Gives the codewords of a symbol, corrected as far as they can be: unlike ecc200_read it goes on after a bad border,
 * after a block that is damaged beyond correction, and if the data codewords spell no message. Of B blocks, block b has
 * the codewords b, b + B, b + 2 B, ..
 * Returns the first fault that applies: SHAPE, SIZE, DOUBT. */
uint16_t ecc200_inspect(const uint8_t *ECC200_RESTRICT modules, size_t count, const uint8_t *ECC200_RESTRICT doubtful,
                        size_t doubtful_count, uint16_t rows, uint16_t columns, ecc200_inspection *ECC200_RESTRICT out);

/* What a module is. */
enum ECC200_SMALL ecc200_kind {
    ECC200_NO_MODULE = 0,    /* nothing that a call writes */
    ECC200_BIT = 1,          /* a bit of a codeword: dark if it is 1 */
    ECC200_BORDER_LIGHT = 2, /* part of the finder and alignment patterns, and should be light */
    ECC200_BORDER_DARK = 3,
    ECC200_FIXED_LIGHT = 4,  /* part of the fixed square at the lower right of some sizes, and should be light */
    ECC200_FIXED_DARK = 5
};

typedef struct ecc200_place {
    uint16_t codeword; /* for a bit, its codeword, counted from 0 in the order of the symbol; else 0 */
    uint8_t bit;       /* for a bit, which one: 1 is the highest, 8 the lowest; else 0 */
    uint8_t kind;      /* an ecc200_kind */
} ecc200_place;

typedef struct ecc200_place_table {
    ecc200_fault fault;
    uint16_t rows;
    uint16_t columns;
    ecc200_place places[ECC200_MOST_MODULES]; /* for each module, row by row: the first rows * columns count */
} ecc200_place_table;

/* Says what each module of a symbol with these rows and columns is. SIZE is the only fault. */
uint16_t ecc200_places(uint16_t rows, uint16_t columns, ecc200_place_table *ECC200_RESTRICT out);

/* ---- Sizes */

typedef struct ecc200_size {
    uint16_t rows;            /* of modules of the symbol */
    uint16_t columns;
    uint16_t region_rows;     /* of modules of a data region, without its border */
    uint16_t region_columns;
    uint16_t regions_down;    /* data regions that stand one above the other */
    uint16_t regions_across;  /* data regions that stand side by side */
    uint16_t mapping_rows;    /* of the mapping matrix, which is all regions together, without their borders */
    uint16_t mapping_columns;
    uint16_t data_codewords;
    uint16_t check_codewords; /* the standard's error correction codewords */
    uint16_t blocks;          /* into which the codewords are dealt */
    uint16_t limit;           /* how many wrong codewords can be corrected in each block */
    uint16_t extension;       /* 1 for a size of ISO/IEC 21471, else 0 */
} ecc200_size;

typedef struct ecc200_size_table {
    ecc200_size sizes[ECC200_SIZE_COUNT];
} ecc200_size_table;

/* The table of sizes, by rising number of modules, and of those with as many by rising columns. */
void ecc200_sizes(ecc200_size_table *ECC200_RESTRICT out);

/* ---- Conveniences: C, and not proved */

/* The bytes of a reading as most decoders give them: an FNC1 in front is left out and reported in *gs1 (which may be
 * NULL); any other becomes the byte 0x1D. Returns how many bytes there are, at most ECC200_MOST_ITEMS, and writes the
 * first `room` of them. */
static inline size_t ecc200_text(const ecc200_reading *reading, uint8_t *bytes, size_t room, int *gs1) {
    size_t first = reading->item_count > 0 && reading->items[0] == ECC200_FNC1, k;
    if (gs1)
        *gs1 = ECC200_CAST(int, first);
    for (k = first; k < reading->item_count && k - first < room; k++)
        bytes[k - first] = ECC200_CAST(uint8_t, reading->items[k] == ECC200_FNC1 ? 0x1D : reading->items[k]);
    return reading->item_count - first;
}

/* The items of bytes; with gs1, FNC1 in front and in place of each byte 0x1D. Returns how many items there are, and
 * writes the first `room` of them. */
static inline size_t ecc200_items(const uint8_t *bytes, size_t count, int gs1, uint16_t *items, size_t room) {
    size_t first = gs1 != 0, k;
    if (gs1 && room > 0)
        items[0] = ECC200_FNC1;
    for (k = 0; k < count && k + first < room; k++)
        items[k + first] = gs1 && bytes[k] == 0x1D ? ECC200_CAST(uint16_t, ECC200_FNC1) : bytes[k];
    return count + first;
}

/* A code in words, to show to people; ecc200_code_words is the same, for callers that can't use what C defines in a
 * header. */
static inline const char *ecc200_words(uint16_t code) {
    switch (code) {
    case ECC200_OK: return "no fault";
    case ECC200_SHAPE: return "the modules aren't as many as the rows times the columns";
    case ECC200_SIZE: return "no size has these rows and columns";
    case ECC200_BORDER: return "too many border modules have the wrong colour";
    case ECC200_BLOCK: return "a block is damaged beyond correction";
    case ECC200_RESERVED: return "a reserved codeword";
    case ECC200_LEFT_OUT: return "an encodation or function that isn't supported";
    case ECC200_UPPER_SHIFT: return "an Upper Shift that no character follows";
    case ECC200_TRIPLET: return "a pair of codewords that doesn't stand for three values";
    case ECC200_VALUE: return "a value that has no meaning after a shift";
    case ECC200_LENGTH: return "a wrong Base 256 length";
    case ECC200_UNFINISHED: return "the run or the symbol ends before the character of an Upper Shift";
    case ECC200_TOO_LONG: return "the message is too long for any size that may be taken";
    case ECC200_ITEM: return "an item above 256";
    case ECC200_PROFILE: return "no such profile";
    case ECC200_EXTENT: return "no such extent";
    case ECC200_CHOICE: return "no such shape";
    case ECC200_DOUBT: return "the doubtful modules aren't as many as the modules";
    case ECC200_DESIGNATOR: return "an ECI without the designator of a number";
    case ECC200_APPEND: return "a structured append that is no part of a file";
    case ECC200_MARK: return "a mark out of order, behind the items, or with a number above 999999";
    case ECC200_HEAD: return "no such head";
    case ECC200_LIMIT: return "no such border limit";
    default: return "not a code of this library";
    }
}

/* The same, in the library. */
const char *ecc200_code_words(uint16_t code);

/* ---- The layout with which the library was built: nothing here is for callers. */

ECC200_ASSERT(sizeof(ecc200_fault) == 6);
ECC200_ASSERT(offsetof(ecc200_fault, code) == 0 && ECC200_SIZE_OF(ecc200_fault, code) == 2);
ECC200_ASSERT(offsetof(ecc200_fault, value) == 2 && ECC200_SIZE_OF(ecc200_fault, value) == 2);
ECC200_ASSERT(offsetof(ecc200_fault, place) == 4 && ECC200_SIZE_OF(ecc200_fault, place) == 2);
ECC200_ASSERT(sizeof(ecc200_head) == 8);
ECC200_ASSERT(offsetof(ecc200_head, kind) == 0 && ECC200_SIZE_OF(ecc200_head, kind) == 2);
ECC200_ASSERT(offsetof(ecc200_head, part) == 2 && ECC200_SIZE_OF(ecc200_head, part) == 2);
ECC200_ASSERT(offsetof(ecc200_head, parts) == 4 && ECC200_SIZE_OF(ecc200_head, parts) == 2);
ECC200_ASSERT(offsetof(ecc200_head, file) == 6 && ECC200_SIZE_OF(ecc200_head, file) == 2);
ECC200_ASSERT(sizeof(ecc200_mark) == 8);
ECC200_ASSERT(offsetof(ecc200_mark, number) == 0 && ECC200_SIZE_OF(ecc200_mark, number) == 4);
ECC200_ASSERT(offsetof(ecc200_mark, place) == 4 && ECC200_SIZE_OF(ecc200_mark, place) == 4);
ECC200_ASSERT(sizeof(ecc200_scan) == 10);
ECC200_ASSERT(offsetof(ecc200_scan, rows) == 0 && ECC200_SIZE_OF(ecc200_scan, rows) == 2);
ECC200_ASSERT(offsetof(ecc200_scan, columns) == 2 && ECC200_SIZE_OF(ecc200_scan, columns) == 2);
ECC200_ASSERT(offsetof(ecc200_scan, limit) == 4 && ECC200_SIZE_OF(ecc200_scan, limit) == 2);
ECC200_ASSERT(offsetof(ecc200_scan, border_limit) == 6 && ECC200_SIZE_OF(ecc200_scan, border_limit) == 2);
ECC200_ASSERT(offsetof(ecc200_scan, extent) == 8 && ECC200_SIZE_OF(ecc200_scan, extent) == 2);
ECC200_ASSERT(sizeof(ecc200_reading) == 12540);
ECC200_ASSERT(offsetof(ecc200_reading, fault) == 0 && ECC200_SIZE_OF(ecc200_reading, fault) == 6);
ECC200_ASSERT(offsetof(ecc200_reading, rows) == 6 && ECC200_SIZE_OF(ecc200_reading, rows) == 2);
ECC200_ASSERT(offsetof(ecc200_reading, columns) == 8 && ECC200_SIZE_OF(ecc200_reading, columns) == 2);
ECC200_ASSERT(offsetof(ecc200_reading, border_faults) == 10 && ECC200_SIZE_OF(ecc200_reading, border_faults) == 2);
ECC200_ASSERT(offsetof(ecc200_reading, block_count) == 12 && ECC200_SIZE_OF(ecc200_reading, block_count) == 2);
ECC200_ASSERT(offsetof(ecc200_reading, item_count) == 14 && ECC200_SIZE_OF(ecc200_reading, item_count) == 2);
ECC200_ASSERT(offsetof(ecc200_reading, mark_count) == 16 && ECC200_SIZE_OF(ecc200_reading, mark_count) == 2);
ECC200_ASSERT(offsetof(ecc200_reading, identifier) == 18 && ECC200_SIZE_OF(ecc200_reading, identifier) == 2);
ECC200_ASSERT(offsetof(ecc200_reading, dealing) == 20 && ECC200_SIZE_OF(ecc200_reading, dealing) == 2);
ECC200_ASSERT(offsetof(ecc200_reading, head) == 22 && ECC200_SIZE_OF(ecc200_reading, head) == 8);
ECC200_ASSERT(offsetof(ecc200_reading, corrected) == 30 && ECC200_SIZE_OF(ecc200_reading, corrected) == 10);
ECC200_ASSERT(offsetof(ecc200_reading, erased) == 40 && ECC200_SIZE_OF(ecc200_reading, erased) == 10);
ECC200_ASSERT(offsetof(ecc200_reading, left) == 50 && ECC200_SIZE_OF(ecc200_reading, left) == 10);
ECC200_ASSERT(offsetof(ecc200_reading, marks) == 60 && ECC200_SIZE_OF(ecc200_reading, marks) == 6232);
ECC200_ASSERT(offsetof(ecc200_reading, items) == 6292 && ECC200_SIZE_OF(ecc200_reading, items) == 6246);
ECC200_ASSERT(sizeof(ecc200_how) == 18);
ECC200_ASSERT(offsetof(ecc200_how, form) == 0 && ECC200_SIZE_OF(ecc200_how, form) == 2);
ECC200_ASSERT(offsetof(ecc200_how, shape) == 2 && ECC200_SIZE_OF(ecc200_how, shape) == 2);
ECC200_ASSERT(offsetof(ecc200_how, rows) == 4 && ECC200_SIZE_OF(ecc200_how, rows) == 2);
ECC200_ASSERT(offsetof(ecc200_how, columns) == 6 && ECC200_SIZE_OF(ecc200_how, columns) == 2);
ECC200_ASSERT(offsetof(ecc200_how, extent) == 8 && ECC200_SIZE_OF(ecc200_how, extent) == 2);
ECC200_ASSERT(offsetof(ecc200_how, head) == 10 && ECC200_SIZE_OF(ecc200_how, head) == 8);
ECC200_ASSERT(sizeof(ecc200_symbol) == 20746);
ECC200_ASSERT(offsetof(ecc200_symbol, fault) == 0 && ECC200_SIZE_OF(ecc200_symbol, fault) == 6);
ECC200_ASSERT(offsetof(ecc200_symbol, rows) == 6 && ECC200_SIZE_OF(ecc200_symbol, rows) == 2);
ECC200_ASSERT(offsetof(ecc200_symbol, columns) == 8 && ECC200_SIZE_OF(ecc200_symbol, columns) == 2);
ECC200_ASSERT(offsetof(ecc200_symbol, modules) == 10 && ECC200_SIZE_OF(ecc200_symbol, modules) == 20736);
ECC200_ASSERT(sizeof(ecc200_inspection) == 10640);
ECC200_ASSERT(offsetof(ecc200_inspection, fault) == 0 && ECC200_SIZE_OF(ecc200_inspection, fault) == 6);
ECC200_ASSERT(offsetof(ecc200_inspection, rows) == 6 && ECC200_SIZE_OF(ecc200_inspection, rows) == 2);
ECC200_ASSERT(offsetof(ecc200_inspection, columns) == 8 && ECC200_SIZE_OF(ecc200_inspection, columns) == 2);
ECC200_ASSERT(offsetof(ecc200_inspection, border_faults) == 10 &&
              ECC200_SIZE_OF(ecc200_inspection, border_faults) == 2);
ECC200_ASSERT(offsetof(ecc200_inspection, block_count) == 12 && ECC200_SIZE_OF(ecc200_inspection, block_count) == 2);
ECC200_ASSERT(offsetof(ecc200_inspection, codeword_count) == 14 &&
              ECC200_SIZE_OF(ecc200_inspection, codeword_count) == 2);
ECC200_ASSERT(offsetof(ecc200_inspection, dealing) == 16 && ECC200_SIZE_OF(ecc200_inspection, dealing) == 2);
ECC200_ASSERT(offsetof(ecc200_inspection, designator_count) == 18 &&
              ECC200_SIZE_OF(ecc200_inspection, designator_count) == 2);
ECC200_ASSERT(offsetof(ecc200_inspection, designators) == 20 && ECC200_SIZE_OF(ecc200_inspection, designators) == 6232);
ECC200_ASSERT(offsetof(ecc200_inspection, corrected) == 6252 && ECC200_SIZE_OF(ecc200_inspection, corrected) == 10);
ECC200_ASSERT(offsetof(ecc200_inspection, erased) == 6262 && ECC200_SIZE_OF(ecc200_inspection, erased) == 10);
ECC200_ASSERT(offsetof(ecc200_inspection, left) == 6272 && ECC200_SIZE_OF(ecc200_inspection, left) == 10);
ECC200_ASSERT(offsetof(ecc200_inspection, held) == 6282 && ECC200_SIZE_OF(ecc200_inspection, held) == 2178);
ECC200_ASSERT(offsetof(ecc200_inspection, mended) == 8460 && ECC200_SIZE_OF(ecc200_inspection, mended) == 2178);
ECC200_ASSERT(sizeof(ecc200_place) == 4);
ECC200_ASSERT(offsetof(ecc200_place, codeword) == 0 && ECC200_SIZE_OF(ecc200_place, codeword) == 2);
ECC200_ASSERT(offsetof(ecc200_place, bit) == 2 && ECC200_SIZE_OF(ecc200_place, bit) == 1);
ECC200_ASSERT(offsetof(ecc200_place, kind) == 3 && ECC200_SIZE_OF(ecc200_place, kind) == 1);
ECC200_ASSERT(sizeof(ecc200_place_table) == 82954);
ECC200_ASSERT(offsetof(ecc200_place_table, fault) == 0 && ECC200_SIZE_OF(ecc200_place_table, fault) == 6);
ECC200_ASSERT(offsetof(ecc200_place_table, rows) == 6 && ECC200_SIZE_OF(ecc200_place_table, rows) == 2);
ECC200_ASSERT(offsetof(ecc200_place_table, columns) == 8 && ECC200_SIZE_OF(ecc200_place_table, columns) == 2);
ECC200_ASSERT(offsetof(ecc200_place_table, places) == 10 && ECC200_SIZE_OF(ecc200_place_table, places) == 82944);
ECC200_ASSERT(sizeof(ecc200_size) == 26);
ECC200_ASSERT(offsetof(ecc200_size, rows) == 0 && ECC200_SIZE_OF(ecc200_size, rows) == 2);
ECC200_ASSERT(offsetof(ecc200_size, columns) == 2 && ECC200_SIZE_OF(ecc200_size, columns) == 2);
ECC200_ASSERT(offsetof(ecc200_size, region_rows) == 4 && ECC200_SIZE_OF(ecc200_size, region_rows) == 2);
ECC200_ASSERT(offsetof(ecc200_size, region_columns) == 6 && ECC200_SIZE_OF(ecc200_size, region_columns) == 2);
ECC200_ASSERT(offsetof(ecc200_size, regions_down) == 8 && ECC200_SIZE_OF(ecc200_size, regions_down) == 2);
ECC200_ASSERT(offsetof(ecc200_size, regions_across) == 10 && ECC200_SIZE_OF(ecc200_size, regions_across) == 2);
ECC200_ASSERT(offsetof(ecc200_size, mapping_rows) == 12 && ECC200_SIZE_OF(ecc200_size, mapping_rows) == 2);
ECC200_ASSERT(offsetof(ecc200_size, mapping_columns) == 14 && ECC200_SIZE_OF(ecc200_size, mapping_columns) == 2);
ECC200_ASSERT(offsetof(ecc200_size, data_codewords) == 16 && ECC200_SIZE_OF(ecc200_size, data_codewords) == 2);
ECC200_ASSERT(offsetof(ecc200_size, check_codewords) == 18 && ECC200_SIZE_OF(ecc200_size, check_codewords) == 2);
ECC200_ASSERT(offsetof(ecc200_size, blocks) == 20 && ECC200_SIZE_OF(ecc200_size, blocks) == 2);
ECC200_ASSERT(offsetof(ecc200_size, limit) == 22 && ECC200_SIZE_OF(ecc200_size, limit) == 2);
ECC200_ASSERT(offsetof(ecc200_size, extension) == 24 && ECC200_SIZE_OF(ecc200_size, extension) == 2);
ECC200_ASSERT(sizeof(ecc200_size_table) == 1248);
ECC200_ASSERT(offsetof(ecc200_size_table, sizes) == 0 && ECC200_SIZE_OF(ecc200_size_table, sizes) == 1248);

#if defined(__cplusplus)
}
#endif
#endif
