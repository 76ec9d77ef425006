/* The lattices that the edges of modules may lie on, by the strongest waves in a window of a picture. */
#ifndef SPECTRUM_H
#define SPECTRUM_H

#include "plane.h"

enum { WINDOW_SIDE = 64, MOST_LATTICES = 3 };

/* Writes the likeliest lattices of a window, which begins at pixel (x, y) of a plane that shows how steep a picture is,
 * or how bright: maps from modules to pixels, which take the origin to the middle of the window, about. What a pixel
 * shows is `beside` its middle, right and down. The crests of the waves are taken for edges; if they are the middles of
 * modules, all is half a module off. Returns their number. */
int find_lattices(const struct plane *plane, int x, int y, double beside, struct homography out[MOST_LATTICES]);

#endif
