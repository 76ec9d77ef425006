/* The second finder: edges that lie on a lattice, whatever is around them, and in it the borders of a symbol. */
#include <stdlib.h>

#include "field.h"
#include "search.h"
#include "spectrum.h"
#include "texture.h"

enum { WORK_OF_A_WINDOW = 400000, WORK_OF_A_MODULE = 1500 };
enum { SPOTS = 12, BORDERS = 6, LEAST_EXTENT = 8, CLEAR = 6 };

/* How many places of a level are looked at, how many lattices at each, and of how many places they are compared before
 * the likeliest grow. */
struct tries {
    int spots, lattices, together;
};
/* For a net to grow at a place: of the clear edges around it, the share on the lattice; and of the places of edges, the
 * share that has one: about half. In the middle of modules there is none, in letters there are more. */
static const double LEAST_NEAR_OF_SEED = 0.7, LEAST_CLEAR_OF_SEED = 0.4, MOST_CLEAR_OF_SEED = 0.65;
static const struct tries USUAL = {SPOTS, 2 * MOST_LATTICES, 1};
/* Where dots are thicker than they are, which is tried last, what a symbol shows is among the first. */
static const struct tries OF_DOTS = {2, 2, 1};
/* Without gleams, what is left of these makes up lattices, too. */
static const struct tries OF_DULL = {SPOTS, 2 * MOST_LATTICES, SPOTS};

/* A level of a sight, and the sight in which what is light in it is dark, or NULL where dots are thicker. */
struct view {
    const struct sight *sight, *inverted;
    int level;
    struct tries tries;
};

static const struct plane *grey_of(const struct view *view) {
    return &view->sight->levels[view->level];
}

/* Judges the symbols whose borders the lattice's modules show. */
static void search_field(struct search *search, const struct view *view, const struct lattice *lattice,
                         struct field *field) {
    struct border borders[BORDERS];
    int first_x, first_y;
    limit_spend(search->judge.limit, WORK_OF_A_MODULE * (int64_t)(lattice->part.last_x - lattice->part.first_x) *
                                         (lattice->part.last_y - lattice->part.first_y));
    sample_field(grey_of(view), lattice, field, &first_x, &first_y);
    int count = find_borders(field, search->judge.layouts, borders, BORDERS);
    search->judge.has_no_memory |= count < 0;
    for (int k = 0; k < count && !is_over(search); k++) {
        struct placement placement = {.extent = borders[k].extent, .score = borders[k].score};
        const struct sight *shown_in = borders[k].is_inverted ? view->inverted : view->sight;
        placement.shows_border = borders[k].score >= CLEAR;
        if (shown_in != NULL && symbol_in(lattice, first_x, first_y, &borders[k], &placement.warp) &&
            judge_all(search, shown_in, &placement, 1, 1 << view->level))
            return;
    }
}

static bool is_large(const struct lattice *lattice) {
    return lattice->part.last_x - lattice->part.first_x >= LEAST_EXTENT &&
           lattice->part.last_y - lattice->part.first_y >= LEAST_EXTENT;
}

/* Keeps a seed, if it is among the likeliest. */
static void keep_seed(struct seeds *seeds, struct seed seed) {
    int at = seeds->count;
    while (at > 0 && seeds->items[at - 1].near < seed.near)
        at--;
    if (at == MOST_SEEDS)
        return;
    seeds->count += seeds->count < MOST_SEEDS;
    for (int k = seeds->count - 1; k > at; k--)
        seeds->items[k] = seeds->items[k - 1];
    seeds->items[at] = seed;
}

/* The lattices whose first modules fit, the likeliest first. */
struct begun {
    struct lattice items[2 * MOST_LATTICES * SPOTS];
    int count;
};

static void keep_begun(struct begun *begun, const struct lattice *lattice) {
    int at = begun->count++;
    for (; at > 0 && begun->items[at - 1].first.near < lattice->first.near; at--)
        begun->items[at] = begun->items[at - 1];
    begun->items[at] = *lattice;
}

/* Begins the lattices of a place. */
static void begin_at(struct search *search, const struct view *view, const struct plane *steep,
                     const struct ground *ground, const struct spot *spot, struct begun *begun) {
    struct homography lattices[2 * MOST_LATTICES];
    struct lattice lattice;
    /* Edges are seen by what is steep, and dots that don't touch by what is dark: thicker ones touch. */
    limit_spend(search->judge.limit, WORK_OF_A_WINDOW);
    int count = find_lattices(steep, spot->x, spot->y, 0.5, lattices);
    if (view->tries.lattices > MOST_LATTICES)
        count += find_lattices(ground->grey, spot->x, spot->y, 0, lattices + count);
    struct seed seed = {.level = view->level};
    for (int k = 0; k < count && k < view->tries.lattices; k++) {
        if (begin_lattice(ground, &lattices[k], search->judge.places, &lattice))
            keep_begun(begun, &lattice);
        struct support first = lattice.first;
        if (first.near > seed.near && first.clear >= LEAST_CLEAR_OF_SEED && first.clear <= MOST_CLEAR_OF_SEED)
            seed.to_picture = lattice.warp.to_picture, seed.near = first.near;
    }
    if (view->inverted != NULL && seed.near >= LEAST_NEAR_OF_SEED)
        keep_seed(&search->seeds, seed);
}

/* Searches what grows at the first of some places, as many as are compared. */
static void search_spots(struct search *search, const struct view *view, const struct plane *steep,
                         const struct spot *spots, int count, struct field *field) {
    struct begun begun = {.count = 0};
    struct ground ground = {grey_of(view), &search->known, 1 << (view->sight->level + view->level)};
    for (int k = 0; k < count && k < view->tries.together && !is_over(search); k++) {
        struct point middle = point_at(spots[k].x + WINDOW_SIDE / 2, spots[k].y + WINDOW_SIDE / 2);
        if (!is_known_at(&search->known, scale_by(middle, ground.scale)))
            begin_at(search, view, steep, &ground, &spots[k], &begun);
    }
    for (int k = 0; k < begun.count && !is_over(search); k++) {
        struct lattice *lattice = &begun.items[k];
        if (is_known_at(&search->known, scale_by(warp_point(&lattice->warp, 0, 0), ground.scale)))
            continue;
        grow_lattice(&ground, search->judge.places, search->judge.limit, lattice);
        if (is_large(lattice))
            search_field(search, view, lattice, field);
    }
}

void search_lattices(struct search *search, const struct sight *sight, const struct sight *inverted, int level) {
    struct view view = {sight, inverted, level,
                        inverted == NULL ? OF_DOTS : search->is_dull ? OF_DULL : USUAL};
    struct spot spots[SPOTS];
    struct plane steep;
    struct field *field = malloc(sizeof *field);
    bool is_made = plane_steepen(grey_of(&view), search->judge.limit, &steep) && field != NULL;
    if (is_made)
        blank_found(search, sight->level + level, &steep);
    int count = is_made ? find_spots(&steep, search->most_steep, search->judge.limit, spots, view.tries.spots) : 0;
    for (int k = 0; k < count && !is_over(search); k += view.tries.together)
        search_spots(search, &view, &steep, &spots[k], count - k, field);
    note_lack(search, is_made && count >= 0);
    free(field);
    plane_free(&steep);
}
