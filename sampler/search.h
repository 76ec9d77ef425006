/* What is found in a picture, and what is known of it while it is searched. */
#ifndef SEARCH_H
#define SEARCH_H

#include "judge.h"

enum { LEVELS = 6 };

/* The picture as it is, or inverted: symbols are looked for as dark on light in both. */
struct sight {
    struct plane picture;
    struct plane levels[LEVELS]; /* the picture smoothed, and each after it half as large */
    int level_count;
    int level;                   /* of the picture that is searched: which of its levels `picture` is */
    struct elbows elbows[LEVELS]; /* of each level that was searched */
    bool is_inverted;
    bool is_thick;               /* whether the picture is of dots made thicker: between them all is flat */
};

/* Where modules may be: from those around a place to the pixels of a level, and the share of edges that fit. */
struct seed {
    struct homography to_picture;
    int level;
    double near;
};

enum { MOST_SEEDS = 6 };
struct seeds {
    struct seed items[MOST_SEEDS]; /* the likeliest, one at a place */
    int count;
};

struct search {
    struct judge judge;
    struct sight sights[2]; /* as it is, and inverted */
    struct lines lines;   /* of the level that is being searched */
    struct layout places; /* room for the places between modules */
    struct elbows calm;   /* of the calm level that is being searched */
    ecc200_sample *found;
    size_t count, room;
    struct known known;   /* where they are */
    struct surroundings by; /* what is dark is darker than these; what is clearer was seen before */
    int most_steep;         /* of what lattices are looked for in: what is steeper was seen before */
    double bend;            /* of its length: by how much a border may be bent */
    bool is_dull;           /* whether gleams were taken from the picture */
    bool is_text;           /* whether the picture as it is is a page of text, and work is limited */
    struct seeds seeds;     /* of the lattices that were looked for */
};

/* Whether there are enough symbols, or no memory, or no time. */
bool is_over(const struct search *search);

/* Takes note of a plane that wasn't made: there was no memory, if there was time. */
void note_lack(struct search *search, bool is_made);

/* Lets a sight be judged. */
void judge_by(struct search *search, const struct sight *sight);

/* Takes note of a symbol that has been read. */
void add_found(struct search *search);

/* Makes 0, in what a level shows as dark or steep, the symbols that have been found, so that they cost no more time. */
void blank_found(const struct search *search, int level, struct plane *plane);

/* Judges placements from the likeliest on, until one is read. They are of a level of the sight of which each pixel is
 * `scale` pixels of its picture. */
bool judge_all(struct search *search, const struct sight *sight, struct placement *placements, int count, double scale);

/* Searches a level of a sight by the lattices that edges lie on, for symbols that are dark on light, and for those that
 * are light on dark by the sight in which these are dark; or NULL if they aren't looked for, as where dots are thicker
 * than they are, which is searched at fewer places. */
void search_lattices(struct search *search, const struct sight *sight, const struct sight *inverted, int level);

/* Searches by nets that grow where lattices were looked for, over a surface that is bent anyhow. That is for pictures
 * in which nothing else has been found. */
void search_nets(struct search *search);

/* What a picture is searched for: what it was made of another one for, or all that can be made out. */
enum look { AS_IT_IS, REMADE, REMADE_FOR_NETS, DULL };

/* Searches a picture, and frees it if it is owned: for all that it shows clearly, and as it is for all that can be made
 * out as well; where it is remade for nets, by these too. `is_alike`: whether what isn't faint was seen before as it
 * is. */
void search_picture(struct search *search, const struct plane *picture, enum look look, bool is_alike);

/* Searches once more what the picture can be made into that shows more than it does itself. Why the search ended is
 * told of the picture as it is. */
void search_anew(struct search *search, const struct plane *picture);

/* Looks where a symbol should stand, as the neighbours of those that were found do. */
void search_rows(struct search *search);

#endif
