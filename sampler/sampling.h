/* From a placement to modules: their brightness, and what counts as dark. */
#ifndef SAMPLING_H
#define SAMPLING_H

#include "layout.h"
#include "plane.h"
#include "warp.h"

/* Of modules of an extent, row by row: of the middle of each, and of the darkest points there. */
struct brightnesses {
    struct extent extent;
    float of[MOST_MODULES], darkest[MOST_MODULES];
};

/* How a symbol lies: a warp for all of it, or for each of its regions, region by region from the top, each row from the
 * left. */
enum { MOST_REGIONS = 36 };
struct lie {
    struct extent region;  /* that each warp is for: the layout's extent, if there is one for all */
    struct warp warps[MOST_REGIONS];
};

/* The mean brightness of each module's middle, and of its two darkest points. */
void sample_modules(const struct plane *plane, const struct layout *layout, const struct lie *lie,
                    struct brightnesses *out);

/* Takes modules to be as bright as their darkest points: so thin gleams, which are brighter than the ground and lie
 * across dark modules, leave these dark. */
void take_darkest(struct brightnesses *brightnesses);

/* How much modules are sharpened, which undoes blur. */
enum sharpening { AS_SEEN, SLIGHTLY, CLEARLY, STRONGLY, SHARPENINGS };

/* How dark modules are told from light ones. */
struct rule {
    enum sharpening sharpening;
    double offset;         /* of the threshold, as a share of the contrast: above 0, more modules are dark */
    bool is_by_all;        /* whether the levels are those of all modules; else of the border alone */
    int around; /* not 0: each module's threshold is that of a square of modules, so many around it each way */
    bool is_cleanest;      /* whether that is the clearest square that the module lies in, not the one around it */
};

/* A level of brightness that changes evenly over the symbol: a + b x + c y, from -0.5 to 0.5. */
struct level {
    double a, b, c;
};

/* The levels of light and of dark modules, if they were tried and the modules show any contrast. */
struct levels {
    struct level of[2];
};
struct fitted {
    struct levels levels;
    enum { NOT_TRIED, MISSING, THERE } state;
};

/* Modules sharpened in a way. */
struct sharpened {
    float of[MOST_MODULES];
    struct fitted by_border, by_all;
};

/* Where the brightnesses of a square of modules are divided best, and how much of their variance that takes away. */
struct division {
    float middle, share, contrast;
};

/* Modules that are to be told apart, and what rules have in common. */
struct telling {
    const struct brightnesses *from;
    const struct layout *layout;
    const uint8_t *colour; /* of each module, as the layout has it, or UNKNOWN */
    double across[MOST_SIDE], down[MOST_SIDE]; /* the places of columns and rows, from -0.5 to 0.5 */
    struct sharpened ways[SHARPENINGS];
    struct division divisions[MOST_MODULES];
};

void begin_telling(const struct brightnesses *from, const struct layout *layout, const uint8_t *colour,
                   struct telling *out);

/* Writes 1 for each dark module. NO_CONTRAST: those that are known show none; NO_BORDER: more than `most` of the border
 * would have the wrong colour; then nothing is written. */
enum told { NO_CONTRAST, NO_BORDER, TOLD_APART };
enum told tell_apart(struct telling *telling, struct rule rule, int most, uint8_t *modules);

#endif
