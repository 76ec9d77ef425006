/* What a picture is made into to be seen anew. */
#ifndef REMAKE_H
#define REMAKE_H

#include "plane.h"

/* Each of these makes a new plane within the limit, as those of plane.h do. */

/* How bright each pixel is as a share of its ground, which is nearly white then: of what is around it but for gleams
 * thinner than so many pixels, at least 2, and for dark places smaller than about 40. So shades and edges of labels go,
 * and faint or dimly lit marks come out alike. If the ground is even, nothing else does. */
bool plane_compare(const struct plane *from, int gleam, struct limit *limit, struct plane *out, bool *is_even_ground);

/* Twice as wide and as high, by a cubic between pixels. */
bool plane_double(const struct plane *from, struct limit *limit, struct plane *out);

enum { JOINED = 2 }; /* how many pixels one becomes, each way */

/* Each pixel as a square of JOINED by JOINED, as dark as the darkest of it and of those above and to the left: so dots
 * touch that are a pixel apart. */
bool plane_join_dots(const struct plane *from, struct limit *limit, struct plane *out);

#endif
