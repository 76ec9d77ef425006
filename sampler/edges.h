/* How the modules of a symbol lie beside an even grid through its corners, by the edges between dark and light ones. */
#ifndef EDGES_H
#define EDGES_H

#include "layout.h"
#include "plane.h"

/* A grid of modules in a picture: an even one through the corners, how far it is off, and how far beside that each
 * module lies. Modules are counted as the symbol has them, from its top left corner. */
struct shift {
    double offset, right, down; /* modules, at the middle, and from side to side: of an affine map */
    double growth, unclear;     /* how far dark modules reach beyond their edges, on one side; and beyond those that
                                   blur moves too */
};
struct mesh {
    struct homography even;
    struct extent extent;
    struct shift shifts[2];          /* along x, and along y */
    float beside[2][MOST_MODULES];   /* of each module, along x and y, what its surroundings are off after that */
};

/* Where a place of the grid lies in the picture: `module` is the one that it belongs to, or -1. */
struct point place_in(const struct mesh *mesh, double x, double y, int module);

/* Finds where the edges between the modules are, of which 1 is dark, or light if the symbol is inverted. Edges that are
 * more than half a module off aren't found. False if there is no memory. */
bool fit_mesh(const struct plane *picture, const uint8_t *modules, bool is_inverted, struct mesh *mesh);

/* How far the module that lies worst lies beside where an even grid through the modules in the corners has it, in
 * modules. */
double worst_beside(const struct mesh *mesh);

#endif
