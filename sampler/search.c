/* Finds symbols in a picture, by all ways in turn. */
#include "search.h"

#include <math.h>
#include <stdlib.h>

enum { CALM_LEVELS = 3, LATTICE_LEVELS = 4, LEAST_LEVEL = 24 };
enum { LEAST_CONTRAST = 24, LEAST_OF_REMADE = 6, MOST_OF_FAINT = 160 }; /* levels */
static const struct surroundings WIDE = {8, 2, LEAST_CONTRAST, 0}, CLOSE = {8, 1, LEAST_CONTRAST, 0},
                                 OF_REMADE = {8, 1, LEAST_OF_REMADE, 0};
enum { STEEPEST_OF_FAINT = 8 }; /* levels: of a window with modules */
static const double LEAST_LINE = 10;       /* pixels of a level */
static const double BEND_OF_REMADE = 0.04; /* of a border: where nothing was seen, it may be bent */

/* At which level dots are looked for that have at most so many pixels to both sides of each of theirs. */
struct dots {
    int level, reach;
};

/* ---- What has been found */

bool is_over(const struct search *search) {
    return search->count == search->room || search->judge.has_no_memory || limit_reached(search->judge.limit);
}

void blank_found(const struct search *search, int level, struct plane *plane) {
    double scale = 1 << level;
    for (size_t k = 0; k < search->count; k++) {
        ecc200_sample_point corners[4];
        double least_x = plane->width, least_y = plane->height, most_x = 0, most_y = 0;
        grow_corners(&search->found[k], 1.5 * scale, corners);
        for (int corner = 0; corner < 4; corner++) {
            double x = corners[corner].x / scale, y = corners[corner].y / scale;
            least_x = fmin(least_x, x), least_y = fmin(least_y, y), most_x = fmax(most_x, x), most_y = fmax(most_y, y);
        }
        for (int y = nearest_pixel(least_y, plane->height, 0); y <= nearest_pixel(most_y, plane->height, 0); y++)
            for (int x = nearest_pixel(least_x, plane->width, 0); x <= nearest_pixel(most_x, plane->width, 0); x++)
                if (lies_within(corners, point_at((x + 0.5) * scale, (y + 0.5) * scale)))
                    *own_pixel_of(plane, x, y) = 0;
    }
}

/* Marks what is dark in a level, as plane_darken does, but for what has been found. */
static bool darken(const struct search *search, const struct plane *grey, int level, struct surroundings by,
                   struct plane *out) {
    bool is_made = plane_darken(grey, by, search->judge.limit, out);
    if (is_made)
        blank_found(search, level, out);
    return is_made;
}

void note_lack(struct search *search, bool is_made) {
    search->judge.has_no_memory |= !is_made && !limit_reached(search->judge.limit);
}

void judge_by(struct search *search, const struct sight *sight) {
    search->judge.picture = &sight->picture, search->judge.smooth = &sight->levels[0],
    search->judge.is_inverted = sight->is_inverted, search->judge.is_thick = sight->is_thick,
    search->judge.scale = 1 << sight->level;
}

void add_found(struct search *search) {
    add_known(&search->known, &search->found[search->count++]);
    limit_renew(search->judge.limit);
}

bool judge_all(struct search *search, const struct sight *sight, struct placement *placements, int count,
               double scale) {
    judge_by(search, sight);
    for (int k = 0; k < count && !is_over(search); k++) {
        struct placement *placement = &placements[k];
        for (int column = 0; column < 3; column++)
            placement->warp.to_picture.m[0][column] *= scale, placement->warp.to_picture.m[1][column] *= scale;
        struct point middle = warp_point(&placement->warp, placement->extent.wide / 2.0, placement->extent.high / 2.0);
        if (!is_known_at(&search->known, scale_by(middle, search->judge.scale)) &&
            judge_placement(&search->judge, placement, &search->found[search->count])) {
            add_found(search);
            return true;
        }
    }
    return false;
}

/* ---- By solid borders, at one level */

/* Tries the elbows of a scene that weren't tried yet, up to, not including, the one with this number. */
static void search_elbows(struct search *search, const struct sight *sight, int level, struct scene scene,
                          struct elbows *elbows, int last) {
    struct placement placements[MOST_PLACEMENTS];
    double scale = 1 << level;
    for (; elbows->tried < last && !is_over(search); elbows->tried++) {
        const struct elbow *elbow = &elbows->items[elbows->tried];
        const struct layouts *shapes = search->judge.layouts;
        if (!embrace_known(&search->known, scale * (1 << sight->level), elbow->corner, elbow->top, elbow->right) &&
            !judge_all(search, sight, placements, placements_of(&scene, shapes, elbow, placements), scale) &&
            elbow->is_lively && even_placement_of(&scene, shapes, elbow, placements))
            judge_all(search, sight, placements, 1, scale);
    }
}

/* Finds the elbows of a level of the picture. False if there is no memory. */
static bool find_all_elbows(struct search *search, int level, struct plane *dark, struct elbows *out) {
    struct sought in = {dark, &search->lines, &search->known, 1 << level};
    return find_lines(dark, LEAST_LINE, search->bend, search->judge.limit, &search->lines) &&
           find_elbows(&in, search->judge.limit, out);
}

/* Finds the elbows of a level, and tries the lively ones whose borders are of one piece each; and where that finds
 * nothing, the other lively ones. */
static void search_lively(struct search *search, struct sight *sight, int level) {
    struct elbows *elbows = &sight->elbows[level];
    const struct plane *grey = &sight->levels[level];
    size_t before = search->count;
    struct plane dark;
    int of_picture = sight->level + level;
    bool is_made =
        darken(search, grey, of_picture, search->by, &dark) && find_all_elbows(search, of_picture, &dark, elbows);
    struct scene scene = {grey, &dark, search->judge.limit};
    if (is_made)
        search_elbows(search, sight, level, scene, elbows, elbows->whole);
    if (is_made && search->count == before)
        search_elbows(search, sight, level, scene, elbows, elbows->lively);
    note_lack(search, is_made);
    plane_free(&dark);
}

/* Tries the elbows of a level that weren't tried yet, up to, not including, the one with this number. */
static void search_again(struct search *search, struct sight *sight, int level, int last) {
    const struct plane *grey = &sight->levels[level];
    struct plane dark;
    if (sight->elbows[level].tried >= last)
        return;
    bool is_made = darken(search, grey, level, search->by, &dark);
    if (is_made)
        search_elbows(search, sight, level, (struct scene){grey, &dark, search->judge.limit}, &sight->elbows[level],
                      last);
    note_lack(search, is_made);
    plane_free(&dark);
}

/* Tries the other lively elbows of a level. */
static void search_joined(struct search *search, struct sight *sight, int level) {
    search_again(search, sight, level, sight->elbows[level].lively);
}

/* Tries the elbows of a level that are left: those that aren't lively. */
static void search_still(struct search *search, struct sight *sight, int level) {
    search_again(search, sight, level, sight->elbows[level].count);
}

/* Finds the elbows of a fine level in another way, against noise and sudden changes of light, and tries the lively
 * ones. That is for pictures in which nothing else has been found. */
static void search_calm(struct search *search, struct sight *sight, int level) {
    struct elbows *elbows = &search->calm;
    struct plane grey, dark = {0};
    if (level >= CALM_LEVELS || search->count > 0)
        return;
    bool is_made = plane_calm(&sight->levels[level], search->judge.limit, &grey) &&
                   darken(search, &grey, level, CLOSE, &dark) && find_all_elbows(search, level, &dark, elbows);
    if (is_made)
        search_elbows(search, sight, level, (struct scene){&grey, &dark, search->judge.limit}, elbows, elbows->lively);
    note_lack(search, is_made);
    plane_free(&grey);
    plane_free(&dark);
}

/* Looks for lattices in a level. */
static void search_woven(struct search *search, struct sight *sight, int level) {
    if (level < LATTICE_LEVELS)
        search_lattices(search, sight, &search->sights[1], level);
}

/* Allows the work of the level that comes as the `k`-th. In a photograph, where small symbols lie among much else, most
 * is for its own pixels. */
static void begin_level(struct search *search, const struct sight *sight, bool is_first, int k) {
    static const int of_photograph[] = {33, 88}; /* percent */
    bool is_photograph = (int64_t)sight->picture.width * sight->picture.height > SHEET;
    if (is_first && is_photograph && k < 2)
        limit_begin_share(search->judge.limit, of_photograph[k]);
    else
        limit_begin_part(search->judge.limit);
}

/* Searches all levels in one of these ways, each within a part of the limit. */
static void search_levels(struct search *search, struct sight *sight,
                          void (*search_level)(struct search *, struct sight *, int)) {
    static const int order[LEVELS] = {1, 0, 2, 3, 4, 5};
    for (int k = 0; k < LEVELS && !is_over(search); k++) {
        begin_level(search, sight, search_level == search_lively, k);
        if (order[k] < sight->level_count)
            search_level(search, sight, order[k]);
        limit_end_part(search->judge.limit);
    }
}

/* ---- A picture */

/* Makes the levels of a sight, whose picture is there, within the limit. False if there was no memory, or the limit was
 * reached. */
static bool make_levels(struct sight *sight, struct limit *limit) {
    if (!plane_smooth(&sight->picture, limit, &sight->levels[0]))
        return false;
    for (sight->level_count = 1; sight->level_count < LEVELS; sight->level_count++) {
        const struct plane *last = &sight->levels[sight->level_count - 1];
        struct plane half;
        if (last->width / 2 < LEAST_LEVEL || last->height / 2 < LEAST_LEVEL)
            break;
        if (!plane_halve(last, limit, &half))
            return false;
        bool is_made = plane_smooth(&half, limit, &sight->levels[sight->level_count]);
        plane_free(&half);
        if (!is_made)
            return false;
    }
    return true;
}

static void sight_free(struct sight *sight) {
    for (int k = 0; k < LEVELS; k++)
        plane_free(&sight->levels[k]), elbows_free(&sight->elbows[k]);
    plane_free(&sight->picture);
}

/* Tries placements that weren't read once more, in another way, within a part of the limit. */
static void search_places(struct search *search, const struct smeared_places *places,
                          bool (*judge)(struct judge *, const struct smeared *, ecc200_sample *)) {
    limit_begin_part(search->judge.limit);
    for (int k = 0; k < places->count && !is_over(search); k++) {
        const struct smeared *place = &places->items[k];
        judge_by(search, &search->sights[place->at.is_inverted]);
        struct point middle = scale_by(sum(place->at.corners[0], place->at.corners[2]), 0.5);
        if (!is_known_at(&search->known, middle) && judge(&search->judge, place, &search->found[search->count]))
            add_found(search);
    }
    limit_end_part(search->judge.limit);
}

/* Tries the likeliest as where light has run from module to module. That is for pictures in which nothing else has been
 * found. */
static void search_smeared(struct search *search) {
    struct judge *judge = &search->judge;
    limit_begin_part(judge->limit);
    for (int k = 0; k < 2 && search->count == 0 && !is_over(search); k++) {
        judge_by(search, &search->sights[k]);
        size_up_smeared(judge);
    }
    limit_end_part(judge->limit);
    sort_smeared(&judge->smeared_places);
    if (search->count == 0)
        search_places(search, &judge->smeared_places, judge_smeared);
}

/* ---- By dots */

/* Makes what is dark thicker, by so many pixels all around. False if there was no memory, or the limit was reached. */
static bool thicken(struct plane *plane, int pixels, struct limit *limit) {
    bool is_made = true;
    for (int k = 0; k < pixels && is_made; k++) {
        struct plane thicker;
        is_made = plane_thicken(plane, limit, &thicker);
        plane_free(plane);
        *plane = thicker;
    }
    return is_made;
}

/* Looks for symbols of dots that don't touch in a level of a sight: they do if they are thicker. */
static void search_thick(struct search *search, const struct sight *sight, struct dots dots) {
    struct limit *limit = search->judge.limit;
    struct sight thick = {.is_inverted = sight->is_inverted, .is_thick = true, .level = dots.level};
    bool is_made = plane_dots(&sight->levels[dots.level], dots.reach, limit, &thick.picture) &&
                   thicken(&thick.picture, dots.reach, limit) &&
                   plane_smooth(&thick.picture, limit, &thick.levels[0]);
    note_lack(search, is_made);
    if (is_made)
        search_lively(search, &thick, 0);
    if (is_made && !is_over(search))
        search_lattices(search, &thick, NULL, 0);
    sight_free(&thick);
}

/* Looks for symbols of dots. That is for pictures in which nothing else has been found. */
static void search_dots(struct search *search, const struct sight *sight) {
    static const struct dots order[] = {{0, 2}, {0, 1}, {1, 2}, {2, 2}, {3, 2}};
    for (size_t k = 0; k < sizeof order / sizeof *order && search->count == 0 && !is_over(search); k++) {
        limit_begin_part(search->judge.limit);
        if (order[k].level < sight->level_count)
            search_thick(search, sight, order[k]);
        limit_end_part(search->judge.limit);
    }
}

/* Makes the picture inverted. */
static void make_inverted(struct search *search) {
    struct sight *inverted = &search->sights[1];
    note_lack(search, plane_invert(&search->sights[0].picture, search->judge.limit, &inverted->picture) &&
                          make_levels(inverted, search->judge.limit));
}

/* By lattices, which show both what is dark on light and what is light on dark; and then by the darkest points of what
 * shows a border. */
static void search_all_woven(struct search *search) {
    search_levels(search, &search->sights[0], search_woven);
    search_places(search, &search->judge.gleaming_places, judge_gleaming);
}

/* By solid borders beside which it looks like a symbol, dark on light. */
static void search_dark(struct search *search) {
    search_levels(search, &search->sights[0], search_lively);
    search_levels(search, &search->sights[0], search_joined);
    search_rows(search);
}

/* The same, light on dark. */
static void search_light(struct search *search) {
    make_inverted(search);
    search_levels(search, &search->sights[1], search_lively);
    search_levels(search, &search->sights[1], search_joined);
    search_rows(search);
}

/* What shows a symbol as it is: first by solid borders, dark on light; and then light on dark, and by lattices. */
static void search_clearly(struct search *search) {
    search_dark(search);
    if (is_over(search))
        return;
    search_light(search);
    search_all_woven(search);
}

/* Allows so many percent of the work for another way to look at text, and half of what is left of the one before, while
 * nothing has been found. */
static void begin_way(struct search *search, int percent) {
    struct limit *limit = search->judge.limit;
    int64_t left = limit->left > 0 ? limit->left : 0;
    if (search->count > 0)
        return;
    limit_begin_anew(limit, percent);
    limit_spend(limit, -left / 2);
}

/* The same of a page of text, whose letters would take all work for dark borders: so each way has its own. Lattices, to
 * which letters look like modules, come last. */
static void search_text(struct search *search) {
    enum { DARK = 83, LIGHT = 27, REST = 9 }; /* percent */
    limit_begin_anew(search->judge.limit, DARK);
    search_dark(search);
    begin_way(search, LIGHT);
    if (is_over(search))
        return;
    search_light(search);
    begin_way(search, REST);
    search_levels(search, &search->sights[0], search_calm);
    search_all_woven(search);
}

/* By the solid borders of a calm picture, and then by other solid borders. What is left of the limit is for smears, and
 * then for dots, which take more; nets have work of their own. */
static void search_deeply(struct search *search) {
    struct sight *plain = &search->sights[0], *inverted = &search->sights[1];
    if (!search->is_text)
        search_levels(search, plain, search_calm);
    search_levels(search, inverted, search_calm);
    search_levels(search, plain, search_still);
    search_levels(search, inverted, search_still);
    search_smeared(search);
    search_dots(search, plain);
    search_dots(search, inverted);
    search_nets(search);
}

void search_picture(struct search *search, const struct plane *picture, enum look look, bool is_alike) {
    struct sight *plain = &search->sights[0], *inverted = &search->sights[1];
    plain->picture = *picture, inverted->is_inverted = true;
    search->by = look == AS_IT_IS ? WIDE : OF_REMADE, search->seeds.count = 0;
    search->by.most_contrast = is_alike ? MOST_OF_FAINT : 0;
    search->most_steep = is_alike ? STEEPEST_OF_FAINT : UINT8_MAX;
    search->is_dull = look == DULL;
    search->bend = look == AS_IT_IS ? 0 : BEND_OF_REMADE;
    note_lack(search, make_levels(plain, search->judge.limit));
    if (look == DULL) { /* gleams cut borders into pieces */
        make_inverted(search);
        search_all_woven(search);
    } else if (!search->is_text)
        search_clearly(search);
    else if (look == AS_IT_IS)
        search_text(search);
    else /* what is faint among letters */
        search_dark(search);
    if (look == AS_IT_IS && !is_over(search))
        search_deeply(search);
    else if (look == REMADE_FOR_NETS)
        search_nets(search);
    sight_free(plain);
    sight_free(inverted);
    elbows_free(&search->calm);
    lines_free(&search->lines);
}
