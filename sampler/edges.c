#include "edges.h"

#include <math.h>
#include <stdlib.h>

enum { TRIES = 3, TERMS_OF_SHIFT = 5, AROUND = 2, LEAST_EDGES = 6 };
static const double REACH = 0.55, STEP = 0.05; /* modules: how far from its place an edge is looked for, how closely */
static const double MOST_BESIDE = 0.35;        /* modules: edges that are farther off don't count for the affine map */
static const double STIFF = 2;                 /* how flat the plane through few edges is */
static const double SLIGHT = 1e-6;             /* for growth, where no edge tells it */

struct edge {
    int module;      /* the one before it; the next one is to the right or below */
    bool is_upright; /* whether it is to the right */
    bool begins;     /* whether that one is dark, or light in an inverted symbol */
    bool is_clear;   /* whether two modules have each colour, so that no blur moves it */
    double shift;
};

struct edges {
    struct edge *of;
    int count;
};

/* A place from -0.5 to 0.5. */
static double share_of(int count, double at) {
    return at / count - 0.5;
}

static double shift_at(const struct shift *shift, struct extent extent, double x, double y) {
    return shift->offset + shift->right * share_of(extent.wide, x) + shift->down * share_of(extent.high, y);
}

struct point place_in(const struct mesh *mesh, double x, double y, int module) {
    double right = shift_at(&mesh->shifts[0], mesh->extent, x, y),
           down = shift_at(&mesh->shifts[1], mesh->extent, x, y);
    if (module >= 0)
        right += mesh->beside[0][module], down += mesh->beside[1][module];
    return map_point(&mesh->even, x + right, y + down);
}

/* The middle of an edge, as the grid has it. */
static struct point middle_of_edge(const struct edge *edge, int wide) {
    int column = edge->module % wide, row = edge->module / wide;
    return edge->is_upright ? point_at(column + 1, row + 0.5) : point_at(column + 0.5, row + 1);
}

/* The brightness so far behind an edge. */
static double brightness_behind(const struct plane *picture, const struct mesh *mesh, const struct edge *edge,
                                double behind) {
    struct point at = middle_of_edge(edge, mesh->extent.wide);
    double total = 0;
    for (int k = 0; k < TRIES; k++) {
        double beside = 0.25 * (k - TRIES / 2);
        struct point here = edge->is_upright ? map_point(&mesh->even, at.x + behind, at.y + beside)
                                             : map_point(&mesh->even, at.x + beside, at.y + behind);
        total += brightness(picture, here);
    }
    return total / TRIES;
}

/* Where an edge is, if that is near by: where the brightness is halfway between those of the two modules. */
static bool find_edge(const struct plane *picture, const struct mesh *mesh, bool darkens, struct edge *edge) {
    double sign = darkens ? -1 : 1, before = 0, best = 1, first = brightness_behind(picture, mesh, edge, -0.5),
           middle = (first + brightness_behind(picture, mesh, edge, 0.5)) / 2;
    for (double behind = -REACH; behind <= REACH; behind += STEP) {
        double here = sign * (brightness_behind(picture, mesh, edge, behind) - middle);
        if (behind > -REACH && before < 0 && here >= 0) {
            double at = behind - STEP * here / (here - before);
            best = fabs(at) < fabs(best) ? at : best;
        }
        before = here;
    }
    edge->shift = best;
    return best < 1;
}

/* The colour of the module so many behind another in its row or column; beyond the symbol that of the quiet zone. */
static bool colour_behind(const uint8_t *modules, struct extent extent, int module, bool is_upright, int behind) {
    int column = module % extent.wide + (is_upright ? behind : 0),
        row = module / extent.wide + (is_upright ? 0 : behind);
    bool is_inside = column >= 0 && row >= 0 && column < extent.wide && row < extent.high;
    return is_inside && modules[row * extent.wide + column] != 0;
}

/* Finds the edges between modules of different colours. */
static void find_edges(const struct plane *picture, const uint8_t *modules, bool is_inverted, const struct mesh *mesh,
                       struct edges *out) {
    int wide = mesh->extent.wide, high = mesh->extent.high;
    for (int k = 0; k < wide * high; k++)
        for (int is_upright = 0; is_upright < 2; is_upright++) {
            bool is_last = is_upright ? k % wide == wide - 1 : k / wide == high - 1;
            bool here = modules[k] != 0, next = colour_behind(modules, mesh->extent, k, is_upright, 1),
                 is_clear = colour_behind(modules, mesh->extent, k, is_upright, -1) == here &&
                            colour_behind(modules, mesh->extent, k, is_upright, 2) == next;
            struct edge edge = {k, is_upright, next, is_clear, 0};
            if (!is_last && here != next && find_edge(picture, mesh, next != is_inverted, &edge))
                out->of[out->count++] = edge;
        }
}

/* What an edge's shift is made of, beside an affine map: growth moves it on where it ends a dark module, one that isn't
 * clear by another length. */
static void find_terms_of(const struct mesh *mesh, const struct edge *edge, double out[TERMS_OF_SHIFT]) {
    struct point at = middle_of_edge(edge, mesh->extent.wide);
    out[0] = 1, out[1] = share_of(mesh->extent.wide, at.x), out[2] = share_of(mesh->extent.high, at.y);
    out[3] = !edge->is_clear ? 0 : edge->begins ? -1 : 1;
    out[4] = edge->is_clear ? 0 : edge->begins ? -1 : 1;
}

/* How far an edge is beside where the grid and the growth have it. */
static double rest_of(const struct mesh *mesh, const struct edge *edge) {
    const struct shift *shift = &mesh->shifts[edge->is_upright ? 0 : 1];
    double terms[TERMS_OF_SHIFT];
    find_terms_of(mesh, edge, terms);
    return edge->shift - shift->offset - shift->right * terms[1] - shift->down * terms[2] -
           shift->growth * terms[3] - shift->unclear * terms[4];
}

/* Fits the affine map and the growth of one direction to edges that aren't far beside those of the round before. */
static void fit_shift(const struct edges *edges, bool is_upright, bool is_first, struct mesh *mesh) {
    double matrix[TERMS_OF_SHIFT * TERMS_OF_SHIFT] = {[18] = SLIGHT, [24] = SLIGHT}, sums[TERMS_OF_SHIFT] = {0},
           terms[TERMS_OF_SHIFT];
    for (int n = 0; n < edges->count; n++) {
        const struct edge *edge = &edges->of[n];
        if (edge->is_upright != is_upright || (!is_first && fabs(rest_of(mesh, edge)) > MOST_BESIDE))
            continue;
        find_terms_of(mesh, edge, terms);
        for (int k = 0; k < TERMS_OF_SHIFT; k++) {
            sums[k] += terms[k] * edge->shift;
            for (int j = 0; j < TERMS_OF_SHIFT; j++)
                matrix[k * TERMS_OF_SHIFT + j] += terms[k] * terms[j];
        }
    }
    if (solve(matrix, sums, TERMS_OF_SHIFT))
        mesh->shifts[is_upright ? 0 : 1] = (struct shift){sums[0], sums[1], sums[2], sums[3], sums[4]};
}

/* What is left of the shifts around each module: their sums, and of how many edges. */
struct rests {
    float sums[2][MOST_MODULES];
    uint16_t counts[2][MOST_MODULES];
};

static void add_rests(const struct edges *edges, const struct mesh *mesh, struct rests *out) {
    for (int n = 0; n < edges->count; n++) {
        const struct edge *edge = &edges->of[n];
        int along = edge->is_upright ? 0 : 1, next = edge->module + (edge->is_upright ? 1 : mesh->extent.wide);
        float rest = (float)rest_of(mesh, edge);
        out->sums[along][edge->module] += rest, out->counts[along][edge->module]++;
        out->sums[along][next] += rest, out->counts[along][next]++;
    }
}

/* What is left at a module, by a plane through what is left around it. */
static float rest_around(const struct rests *rests, struct extent extent, int module, int along) {
    int column = module % extent.wide, row = module / extent.wide;
    double matrix[9] = {0, 0, 0, 0, STIFF, 0, 0, 0, STIFF}, sums[3] = {0};
    for (int y = row - AROUND < 0 ? 0 : row - AROUND; y <= row + AROUND && y < extent.high; y++)
        for (int x = column - AROUND < 0 ? 0 : column - AROUND; x <= column + AROUND && x < extent.wide; x++) {
            double terms[3] = {1, x - column, y - row}, n = rests->counts[along][y * extent.wide + x];
            for (int k = 0; k < 3; k++) {
                sums[k] += terms[k] * rests->sums[along][y * extent.wide + x];
                for (int j = 0; j < 3; j++)
                    matrix[3 * k + j] += n * terms[k] * terms[j];
            }
        }
    return matrix[0] >= LEAST_EDGES && solve(matrix, sums, 3) ? (float)sums[0] : 0;
}

bool fit_mesh(const struct plane *picture, const uint8_t *modules, bool is_inverted, struct mesh *mesh) {
    int count = mesh->extent.wide * mesh->extent.high;
    struct edges edges = {malloc(2 * (size_t)count * sizeof *edges.of), 0};
    struct rests *rests = calloc(1, sizeof *rests);
    bool has_room = edges.of != NULL && rests != NULL;
    if (has_room) {
        find_edges(picture, modules, is_inverted, mesh, &edges);
        for (int k = 0; k < 4; k++)
            fit_shift(&edges, k % 2 == 0, k < 2, mesh);
        add_rests(&edges, mesh, rests);
        for (int k = 0; k < count; k++)
            for (int along = 0; along < 2; along++)
                mesh->beside[along][k] = rest_around(rests, mesh->extent, k, along);
    }
    free(edges.of);
    free(rests);
    return has_room;
}

/* How far a module lies beside where it would, if all lay evenly between those in the corners. */
static double beside_corners(const float *beside, struct extent extent, int module) {
    int last = extent.wide - 1, bottom = (extent.high - 1) * extent.wide;
    double right = (double)(module % extent.wide) / last, down = (double)(module / extent.wide) / (extent.high - 1),
           upper = beside[0] + right * (beside[last] - beside[0]),
           lower = beside[bottom] + right * (beside[bottom + last] - beside[bottom]);
    return beside[module] - upper - down * (lower - upper);
}

double worst_beside(const struct mesh *mesh) {
    double worst = 0;
    for (int k = 0; k < mesh->extent.wide * mesh->extent.high; k++)
        worst = fmax(worst, hypot(beside_corners(mesh->beside[0], mesh->extent, k),
                                  beside_corners(mesh->beside[1], mesh->extent, k)));
    return worst;
}
