/* A second sight: what a picture can be made into shows symbols that it doesn't show itself. */
#include <string.h>

#include "kind.h"
#include "remake.h"
#include "search.h"

enum { MOST_DOUBLED = 2000000, MOST_JOINED = 160000, NO_GLEAM = 2, GLEAM = 6 }; /* pixels */

static void scale_symbols(ecc200_sample *symbols, size_t count, double scale) {
    for (size_t k = 0; k < count; k++)
        for (int corner = 0; corner < 4; corner++)
            symbols[k].corners[corner].x *= scale, symbols[k].corners[corner].y *= scale;
}

/* Forgets what was seen of a picture that was searched, and tells what was found in it in the pixels of another one.
 * False if there is no memory. */
static bool turn_to(struct search *search, const struct plane *picture) {
    struct judge *judge = &search->judge;
    judge->tried.count = judge->smeared_places.count = judge->gleaming_places.count = 0;
    memset(search->sights, 0, sizeof search->sights);
    known_free(&search->known);
    bool is_made = known_make(picture->width, picture->height, &search->known);
    judge->has_no_memory |= !is_made;
    for (size_t k = 0; k < search->count && is_made; k++)
        add_known(&search->known, &search->found[k]);
    return is_made;
}

/* Searches what a picture was made into, of which `scale` pixels are one of it, for symbols that weren't found. What
 * isn't read there may be no symbol, and isn't told. `is_alike`: whether only what is faint looks otherwise. The plane
 * is freed. */
static void search_remade(struct search *search, struct plane *remade, int scale, enum look look, bool is_alike) {
    size_t room_for_unread = search->judge.unread.room;
    scale_symbols(search->found, search->count, scale);
    search->judge.unread.room = 0;
    if (turn_to(search, remade))
        search_picture(search, remade, look, is_alike);
    else
        plane_free(remade);
    scale_symbols(search->found, search->count, 1.0 / scale);
    search->judge.unread.room = room_for_unread;
}

/* The picture as a share of its ground. */
static bool compare(const struct plane *picture, struct limit *limit, struct plane *out, bool *is_alike) {
    return plane_compare(picture, NO_GLEAM, limit, out, is_alike);
}

/* The picture as a share of its ground without gleams. */
static bool compare_dull(const struct plane *picture, struct limit *limit, struct plane *out, bool *is_alike) {
    bool is_made = plane_compare(picture, GLEAM, limit, out, is_alike);
    *is_alike = false;
    return is_made;
}

/* The picture as a share of its ground without gleams, and then twice as large. */
static bool compare_doubled(const struct plane *picture, struct limit *limit, struct plane *out, bool *is_alike) {
    struct plane compared;
    bool is_made = compare_dull(picture, limit, &compared, is_alike) && plane_double(&compared, limit, out);
    plane_free(&compared);
    return is_made;
}

/* The picture with its dots joined. */
static bool join_dots(const struct plane *picture, struct limit *limit, struct plane *out, bool *is_alike) {
    *is_alike = false;
    return plane_join_dots(picture, limit, out);
}

/* What pictures are made into, and whether that is alike but for what is faint; how many pixels of it are one of the
 * picture, how much work that is worth, and which pictures are. */
static const struct {
    bool (*make)(const struct plane *picture, struct limit *limit, struct plane *out, bool *is_alike);
    int scale;
    int percent, most_pixels; /* percent of the usual work */
    bool (*suits)(const struct plane *picture); /* of which pictures, or NULL */
    bool is_for_more;                           /* also where something has been found */
    enum look look;
} LOOKS[] = {{compare, 1, 50, INT32_MAX, NULL, true, REMADE},
             {compare_doubled, 2, 30, MOST_DOUBLED, NULL, false, REMADE_FOR_NETS},
             {join_dots, JOINED, 50, MOST_JOINED, is_drawn, false, REMADE},
             {compare_dull, 1, 50, INT32_MAX, is_gleaming, false, DULL}};

/* Looks at a picture in one of these ways, if it is of those. */
static void look_again(struct search *search, const struct plane *picture, size_t k) {
    struct limit *limit = search->judge.limit;
    struct plane remade;
    limit_begin_anew(limit, LOOKS[k].percent);
    if (is_over(search) || (search->count > 0 && !LOOKS[k].is_for_more) ||
        (int64_t)picture->width * picture->height > LOOKS[k].most_pixels ||
        (LOOKS[k].suits != NULL && !LOOKS[k].suits(picture)))
        return;
    search->judge.original = picture, search->judge.scale_of_original = LOOKS[k].scale;
    bool is_alike = false, is_made = LOOKS[k].make(picture, limit, &remade, &is_alike);
    note_lack(search, is_made);
    if (is_made)
        search_remade(search, &remade, LOOKS[k].scale, LOOKS[k].look, is_alike);
}

void search_anew(struct search *search, const struct plane *picture) {
    struct limit *limit = search->judge.limit;
    enum ecc200_sample_end reached = limit->reached;
    for (size_t k = 0; k < sizeof LOOKS / sizeof *LOOKS; k++)
        look_again(search, picture, k);
    if (limit->reached != ECC200_SAMPLE_TIME)
        limit->reached = reached;
}
