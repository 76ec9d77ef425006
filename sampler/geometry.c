#include "geometry.h"

#include <math.h>

struct point turn_by(struct point a, double angle) {
    double c = cos(angle), s = sin(angle);
    return point_at(c * a.x - s * a.y, s * a.x + c * a.y);
}

double length(struct point a) {
    return sqrt(dot(a, a));
}

bool intersection(struct point a, struct point u, struct point b, struct point v, struct point *out) {
    double across = cross(u, v);
    if (fabs(across) < 1e-9 * length(u) * length(v) || across == 0)
        return false;
    *out = sum(a, scale_by(u, cross(difference(b, a), v) / across));
    return true;
}

struct homography compose(const struct homography *outer, const struct homography *inner) {
    struct homography out;
    for (int row = 0; row < 3; row++)
        for (int column = 0; column < 3; column++) {
            double entry = 0;
            for (int k = 0; k < 3; k++)
                entry += outer->m[row][k] * inner->m[k][column];
            out.m[row][column] = entry;
        }
    return out;
}

static void swap(double *one, double *other) {
    double kept = *one;
    *one = *other, *other = kept;
}

/* Solves for so many right sides, each n numbers. */
static inline bool solve_sides(double *a, double *const *sides, int count, int n) {
    for (int pivot = 0; pivot < n; pivot++) {
        int best = pivot;
        for (int row = pivot + 1; row < n; row++)
            if (fabs(a[row * n + pivot]) > fabs(a[best * n + pivot]))
                best = row;
        if (!(fabs(a[best * n + pivot]) > 1e-12))
            return false;
        for (int column = 0; column < n && best != pivot; column++)
            swap(&a[pivot * n + column], &a[best * n + column]);
        for (int side = 0; side < count; side++)
            swap(&sides[side][pivot], &sides[side][best]);
        for (int row = 0; row < n; row++) {
            double factor = row == pivot ? 0 : a[row * n + pivot] / a[pivot * n + pivot];
            if (factor == 0)
                continue;
            for (int column = pivot; column < n; column++)
                a[row * n + column] -= factor * a[pivot * n + column];
            for (int side = 0; side < count; side++)
                sides[side][row] -= factor * sides[side][pivot];
        }
    }
    for (int row = 0; row < n; row++)
        for (int side = 0; side < count; side++)
            sides[side][row] /= a[row * n + row];
    return true;
}

bool solve(double *a, double *b, int n) {
    return solve_sides(a, &b, 1, n);
}

bool solve_both(double *a, double *b, double *c, int n) {
    double *sides[] = {b, c};
    return solve_sides(a, sides, 2, n);
}

/* Of the last of four points, how much of each of the others makes it up: twice the areas that it spans with two. */
static void find_shares(const struct point points[4], double shares[3]) {
    struct point one = difference(points[1], points[0]), other = difference(points[2], points[0]),
                 last = difference(points[3], points[0]);
    shares[1] = cross(last, other), shares[2] = cross(one, last);
    shares[0] = cross(one, other) - shares[1] - shares[2];
}

/* Three points make up all others, and their images the images of these: how much each of the images counts for, the
 * fourth point tells. */
bool through(const struct point from[4], const struct point to[4], struct homography *out) {
    double shares[3], of_images[3], sums[3][3] = {{0}};
    find_shares(from, shares);
    find_shares(to, of_images);
    for (int k = 0; k < 3; k++) {
        struct point next = from[(k + 1) % 3], after = from[(k + 2) % 3];
        double factor = of_images[k] / shares[k], image[3] = {factor * to[k].x, factor * to[k].y, factor},
               share[3] = {next.y - after.y, after.x - next.x, cross(next, after)};
        for (int row = 0; row < 3; row++)
            for (int column = 0; column < 3; column++)
                sums[row][column] += image[row] * share[column];
    }
    double whole = sums[2][2];
    if (!(fabs(whole) > 1e-12 && fabs(whole) < INFINITY))
        return false;
    for (int k = 0; k < 3 * 3; k++)
        out->m[k / 3][k % 3] = sums[k / 3][k % 3] / whole;
    return true;
}
