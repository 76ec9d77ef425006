/* QR codes and Aztec codes, by their squares within squares. */
#ifndef SQUARES_H
#define SQUARES_H

#include "ecc200_sample.h"
#include "plane.h"
#include "runs.h"

/* The middle of a square within squares, and the width of a module, in pixels. */
struct square {
    struct point at;
    double module;
};

enum { MOST_SQUARES = 40 };

/* Those of QR codes that were found in a plane, and how many places were looked at. */
struct squares {
    struct square items[MOST_SQUARES];
    int count, tried;
};

/* Looks for squares of a QR code that a row crosses, and takes note of them. */
void look_for_squares(const struct plane *dark, const struct runs *runs, int row, struct squares *seen);

/* Whether three squares are those of a QR code; then `corners` are where it lies. */
bool make_qr_code(const struct plane *dark, const struct squares *seen, ecc200_sample_point corners[4]);

/* Whether a row crosses the middle of an Aztec code; then `corners` are where it lies. */
bool crosses_aztec_code(const struct plane *dark, const struct runs *runs, int row, int *tried,
                        ecc200_sample_point corners[4]);

#endif
