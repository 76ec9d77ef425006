#include "kind.h"

#include "limit.h"

enum { LEVELS_OF_GREY = 256 };

/* The least level up to which there are so many pixels, by how often each level is there. */
static int level_of(const int *often, int pixels) {
    int level = 0;
    for (int passed = often[0]; passed < pixels; passed += often[level])
        level++;
    return level;
}

bool is_drawn(const struct plane *picture) {
    int least = *pixel_of(picture, 0, 0), most = least;
    bool is_of_two = true;
    for (int y = 0; y < picture->height && is_of_two; y++)
        for (int x = 0; x < picture->width && is_of_two; x++) {
            int here = *pixel_of(picture, x, y);
            is_of_two = here == least || here == most || least == most;
            least = here < least ? here : least, most = here > most ? here : most;
        }
    return is_of_two;
}

bool is_gleaming(const struct plane *picture) {
    enum { ROWS_APART = 4, LEAST = 50, MOST = 5 }; /* of the part: one of so many pixels */
    int often[LEVELS_OF_GREY] = {0}, count = 0, lighter = 0;
    for (int y = 0; y < picture->height; y += ROWS_APART, count += picture->width)
        for (int x = 0; x < picture->width; x++)
            often[*pixel_of(picture, x, y)]++;
    int usual = level_of(often, count / 4 * 3);
    for (int level = usual + usual / 5 + 1; level < LEVELS_OF_GREY; level++)
        lighter += often[level];
    return lighter > count / LEAST && lighter < count / MOST;
}

/* ---- Text */

enum { TILE = 64, APART = 4, LOOKED_AT = TILE / APART * (TILE / APART) }; /* pixels of a side, and of a tile */

/* How often each level is in a tile. */
static void look_at_tile(const struct plane *picture, int left, int top, int often[LEVELS_OF_GREY]) {
    for (int y = top; y < top + TILE; y += APART)
        for (int x = left; x < left + TILE; x += APART)
            often[*pixel_of(picture, x, y)]++;
}

static int sum_of(const int *often, int first, int after) {
    int sum = 0;
    for (int level = first; level < after; level++)
        sum += often[level];
    return sum;
}

bool is_text(const struct plane *picture) {
    enum { LEAST = 500000, LIGHT = 128 };                        /* pixels, a level */
    enum { NEAR = 12, INK = 4, LEAST_INK = 32, OTHERWISE = 20 }; /* one of so many parts: of the ground, a tile, all */
    int64_t pixels = (int64_t)picture->width * picture->height;
    int middles[LEVELS_OF_GREY] = {0}, inks[LEVELS_OF_GREY] = {0}, count = 0;
    if (pixels < LEAST || pixels > SHEET)
        return false;
    for (int top = 0; top + TILE <= picture->height; top += TILE)
        for (int left = 0; left + TILE <= picture->width; left += TILE, count++) {
            int often[LEVELS_OF_GREY] = {0};
            look_at_tile(picture, left, top, often);
            middles[level_of(often, LOOKED_AT / 2)]++;
            inks[level_of(often, LOOKED_AT / LEAST_INK)]++;
        }
    int ground = level_of(middles, count / 2), lightest = ground + ground / NEAR,
        after = lightest < LEVELS_OF_GREY ? lightest + 1 : LEVELS_OF_GREY;
    return ground >= LIGHT && sum_of(middles, ground - ground / NEAR, after) >= count - count / OTHERWISE &&
           sum_of(inks, 0, ground - ground / INK) > count / 2;
}
