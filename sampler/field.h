/* From a lattice to a field of modules, dark or light beside those around each. */
#ifndef FIELD_H
#define FIELD_H

#include "borders.h"
#include "lattice.h"

/* Samples the lattice and some modules around it; gives the lattice's module at the field's upper left corner. */
void sample_field(const struct plane *grey, const struct lattice *lattice, struct field *out, int *first_x,
                  int *first_y);

/* Tells which modules of a field are dark, by how bright they and those around them are, MOST_FIELD to a row; those
 * below 0 aren't known, and light. */
void divide_field(const float *of, struct field *out);

/* The map from the modules of the upright symbol with this border to pixels. False if there is none. */
bool symbol_in(const struct lattice *lattice, int first_x, int first_y, const struct border *border, struct warp *out);

#endif
