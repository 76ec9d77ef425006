/* Points, lines and plane projective transformations. */
#ifndef GEOMETRY_H
#define GEOMETRY_H

#include <stdbool.h>

struct point {
    double x, y;
};

/* Maps a point (x, y) to the first two over the third coordinate of m (x, y, 1). Here: modules of a symbol, counted
 * from its top left corner, to pixels of a picture. */
struct homography {
    double m[3][3];
};

static inline struct point point_at(double x, double y) {
    return (struct point){x, y};
}

static inline struct point sum(struct point a, struct point b) {
    return point_at(a.x + b.x, a.y + b.y);
}

static inline struct point difference(struct point a, struct point b) {
    return point_at(a.x - b.x, a.y - b.y);
}

static inline struct point scale_by(struct point a, double by) {
    return point_at(a.x * by, a.y * by);
}

static inline double dot(struct point a, struct point b) {
    return a.x * b.x + a.y * b.y;
}

static inline double cross(struct point a, struct point b) {
    return a.x * b.y - a.y * b.x;
}

/* For qsort, where all else is equal: what lies higher comes first, and of two at one height what lies farther left. So
 * the order is the same whatever the C library makes of ties. */
static inline int by_place(struct point a, struct point b) {
    return a.y < b.y ? -1 : a.y > b.y ? 1 : a.x < b.x ? -1 : a.x > b.x;
}

struct point turn_by(struct point a, double angle);
double length(struct point a);

/* Where the lines through a along u and through b along v meet. */
bool intersection(struct point a, struct point u, struct point b, struct point v, struct point *out);

static inline struct point map_point(const struct homography *h, double x, double y) {
    const double(*m)[3] = h->m;
    double w = m[2][0] * x + m[2][1] * y + m[2][2];
    return point_at((m[0][0] * x + m[0][1] * y + m[0][2]) / w, (m[1][0] * x + m[1][1] * y + m[1][2]) / w);
}

struct homography compose(const struct homography *outer, const struct homography *inner);

/* The transformation that takes each of four points to its image, if there is one. */
bool through(const struct point from[4], const struct point to[4], struct homography *out);

/* Solves the n equations a x = b, row by row in a, which is overwritten; x comes out in b. */
bool solve(double *a, double *b, int n);

/* The same of a x = b and a y = c at once; y comes out in c. */
bool solve_both(double *a, double *b, double *c, int n);

#endif
