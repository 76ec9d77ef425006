/* The third finder: a net that grows over modules that lie on no lattice, as those of crumpled paper or of a picture
 * that was taken row by row, and in it the borders of a symbol. */
#include <math.h>
#include <stdlib.h>

#include "field.h"
#include "net.h"
#include "search.h"

enum { BORDERS = 2, FOR_NETS = 50, FOR_NETS_IN_TEXT = 5 }; /* percent of the usual work */
static const double LEAST_OF_SCORE = 0.65; /* of the score of a border without a fault */

struct grown {
    struct net net;
    struct field field;
    struct brightnesses brightnesses;
};

/* Judges the symbols whose borders the net's modules show. */
static void search_net(struct search *search, const struct seed *seed, struct grown *grown) {
    struct judge *judge = &search->judge;
    struct border borders[BORDERS];
    struct point corners[4];
    int first_x, first_y;
    take_field(&grown->net, &grown->field, &first_x, &first_y);
    int count = find_borders(&grown->field, judge->layouts, borders, BORDERS);
    judge->has_no_memory |= count < 0;
    for (int k = 0; k < count && search->count == 0 && !is_over(search); k++) {
        if (borders[k].score < LEAST_OF_SCORE * 2 * sqrt(mean_side(borders[k].extent)))
            return;
        judge_by(search, &search->sights[borders[k].is_inverted]);
        if (sample_net(&grown->net, judge->picture, 1 << seed->level, first_x, first_y, &borders[k],
                       &grown->brightnesses, corners) &&
            judge_modules(judge, &grown->brightnesses, corners, &search->found[search->count]))
            add_found(search);
    }
}

/* Grows nets from all seeds, with work of their own. */
void search_nets(struct search *search) {
    struct grown *grown = malloc(sizeof *grown);
    search->judge.has_no_memory |= grown == NULL;
    limit_begin_anew(search->judge.limit, search->is_text ? FOR_NETS_IN_TEXT : FOR_NETS);
    for (int k = 0; k < search->seeds.count && search->count == 0 && !is_over(search); k++) {
        const struct seed *seed = &search->seeds.items[k];
        const struct plane *grey = &search->sights[0].levels[seed->level];
        if (grow_net(grey, &seed->to_picture, search->judge.limit, &grown->net))
            search_net(search, seed, grown);
    }
    free(grown);
}
