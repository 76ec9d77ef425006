/* Codes of other kinds, which aren't read here. */
#ifndef OTHER_H
#define OTHER_H

#include "ecc200_sample.h"
#include "plane.h"

/* The code of another kind that a picture shows, in words, and where; NULL if it shows none that is clear. */
const char *other_code(const struct plane *picture, ecc200_sample_point corners[4]);

#endif
