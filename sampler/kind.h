/* What kind a picture is: where another way to look at it pays, or the usual work doesn't. */
#ifndef KIND_H
#define KIND_H

#include "plane.h"

/* Whether a picture is made of two levels of brightness, as drawings are whose dots are single pixels. */
bool is_drawn(const struct plane *picture);

/* Whether a small part of a picture is much lighter than most of it, as gleams are; by some of its rows. */
bool is_gleaming(const struct plane *picture);

/* Whether a picture is a page of text, up to a sheet of A4 at 300 dpi: light, as evenly as scanners light it, and on
 * most of it things that are dark, but on no part of it more than half. */
bool is_text(const struct plane *picture);

#endif
