/* Tries the ways to sample a placement, and lets the reader judge each. */
#ifndef JUDGE_H
#define JUDGE_H

#include "doubt.h"
#include "sampling.h"
#include "smear.h"
#include "track.h"
#include "tried.h"
#include "unread.h"

struct judge {
    const struct plane *picture, *smooth;   /* as it is, and smoothed */
    int least_side, margin;                 /* of what counts as read */
    struct layouts *layouts;
    struct layout *places;                  /* room for the places between modules of any size */
    struct limit *limit;                    /* when to stop */
    bool has_no_memory;                     /* whether memory was wanted that isn't there */
    bool is_inverted;                       /* whether `picture` is the picture inverted */
    bool is_thick;                          /* whether it is of dots made thicker, which show no damage */
    const struct plane *original;           /* what the picture that is searched was made of, or NULL */
    double scale_of_original;               /* how many pixels of the picture that is searched one of that is */
    double scale;                           /* how many pixels of the picture that is searched one of `picture` is */
    ecc200_sample *trial;                   /* room for a candidate */
    uint8_t seen[MOST_MODULES];             /* its modules as the picture shows them, in a mirror perhaps */
    uint8_t doubtful[MOST_MODULES];         /* those of them that tell nothing, while these are given to the reader */
    struct telling telling;
    struct looks looks[2];                  /* at the picture, and at what it was made of */
    struct smear smear;
    struct unread unread;                   /* those that have a border and aren't read */
    struct tried_places tried;
    struct smeared_places smeared_places, gleaming_places; /* the latter show a symbol's border */
};

/* Whether the placement, or one near it, is read; then `out` is the candidate with the fewest corrections. */
bool judge_placement(struct judge *judge, const struct placement *placement, ecc200_sample *out);

/* Whether a placement is read by its modules' darkest points, as where gleams lie across them; then `out` is what it
 * says. */
bool judge_gleaming(struct judge *judge, const struct smeared *gleaming, ecc200_sample *out);

/* Whether modules of which it is known how bright they are, and where their corners lie in `picture`, are read with two
 * checks of each block unused; then `out` is what they say. */
bool judge_modules(struct judge *judge, const struct brightnesses *brightnesses, const struct point corners[4],
                   ecc200_sample *out);

/* Tells the sides of those squares among the smeared placements that are inverted as the picture is, by how evenly
 * their borders turn. */
void size_up_smeared(struct judge *judge);

/* Whether a placement is read as light that has run from module to module shows it; then `out` is what it says. */
bool judge_smeared(struct judge *judge, const struct smeared *smeared, ecc200_sample *out);

#endif
