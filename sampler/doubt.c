#include "doubt.h"

#include <math.h>
#include <string.h>

enum { POINTS = 3, SATURATED = 250, LEAST_WRONG = 2, LEAST_CONTRAST = 12 };
static const double APART = 0.3;  /* modules: how far the points of a module are from one another */
/* Of the contrast: by how much modules that look alike may differ, and a border module is nothing that it should be. */
static const double FLAT = 0.14, WRONG = 0.35;

/* ---- What a symbol and its surroundings look like */

static void look_at_module(const struct plane *picture, bool is_inverted, const struct warp *warp, int x, int y,
                           struct looks *out, int at) {
    double total = 0, least = 255;
    out->is_outside[at] = 0;
    for (int k = 0; k < POINTS * POINTS; k++) {
        struct point point =
            warp_point(warp, x + 0.5 + APART * (k % POINTS - 1), y + 0.5 + APART * (k / POINTS - 1));
        double level = brightness(picture, point), here = is_inverted ? 255 - level : level;
        total += here, least = here < least ? here : least;
        out->is_outside[at] |= !shows(picture, point);
    }
    out->mean[at] = (float)(total / (POINTS * POINTS));
    out->least[at] = (uint8_t)least;
}

void look_at_modules(const struct plane *picture, bool is_inverted, const struct layout *layout,
                     const struct warp *warp, struct looks *out) {
    out->extent = (struct extent){layout->extent.wide + 2 * RING, layout->extent.high + 2 * RING};
    for (int y = 0, at = 0; y < out->extent.high; y++)
        for (int x = 0; x < out->extent.wide; x++, at++)
            look_at_module(picture, is_inverted, warp, x - RING, y - RING, out, at);
}

static int known_at(const struct looks *looks, const struct layout *layout, int at) {
    return colour_at(layout, at % looks->extent.wide - RING, at / looks->extent.wide - RING);
}

static int count_of(const struct looks *looks) {
    return looks->extent.wide * looks->extent.high;
}

/* How bright modules are that should be light, and dark; and whether most of the light ones are as light as can be, so
 * that a glare on them can't be seen. */
struct levels {
    double of[2];
    bool is_saturated;
};

static double contrast_of(const struct levels *levels) {
    return levels->of[LIGHT] - levels->of[DARK];
}

/* The median of numbers from 0 to 255, of which each comes so often; -1 if there is none. */
static int median_of(const int often[256]) {
    int count = 0, at = -1;
    for (int k = 0; k < 256; k++)
        count += often[k];
    for (int passed = 0; 2 * passed < count;)
        passed += often[++at];
    return at;
}

/* False if the picture shows too few of them. What is damaged counts little: the levels are medians. */
static bool find_levels(const struct looks *looks, const struct layout *layout, struct levels *out) {
    int often[2][256] = {{0}}, light = 0, saturated = 0;
    for (int k = 0; k < count_of(looks); k++) {
        int colour = known_at(looks, layout, k);
        if (colour == UNKNOWN || looks->is_outside[k])
            continue;
        often[colour][(int)looks->mean[k]]++;
        light += colour == LIGHT, saturated += colour == LIGHT && looks->least[k] >= SATURATED;
    }
    *out = (struct levels){{median_of(often[LIGHT]), median_of(often[DARK])}, 2 * saturated > light};
    return out->of[DARK] >= 0 && contrast_of(out) >= LEAST_CONTRAST;
}

/* ---- Flat areas: squares of three by three modules that look all alike, side by side */

/* Whether the square around a module, which isn't at the rim, looks alike, or is saturated all over. */
static bool is_alike(const struct looks *looks, int at, double most) {
    float low = looks->mean[at], high = low;
    for (int down = -1; down <= 1; down++)
        for (int right = -1; right <= 1; right++) {
            int here = at + down * looks->extent.wide + right;
            low = looks->mean[here] < low ? looks->mean[here] : low;
            high = looks->mean[here] > high ? looks->mean[here] : high;
        }
    return high - low <= most;
}

static bool is_inside(const struct looks *looks, int x, int y, int rim) {
    return x >= rim && y >= rim && x < looks->extent.wide - rim && y < looks->extent.high - rim;
}

static void find_flat(struct looks *looks, double most) {
    for (int k = 0; k < count_of(looks); k++)
        looks->is_flat[k] =
            is_inside(looks, k % looks->extent.wide, k / looks->extent.wide, 1) && is_alike(looks, k, most);
}

/* A flat area: how many border modules in it are neither dark nor light as they should be; whether it is saturated; and
 * whether it has a square of five by five modules, which no data have. */
struct area {
    int wrong;
    bool is_saturated, is_wide;
};

static bool is_wrong(const struct looks *looks, const struct layout *layout, const struct levels *levels, int at) {
    int colour = known_at(looks, layout, at);
    return is_inside(looks, at % looks->extent.wide, at / looks->extent.wide, RING) && colour != UNKNOWN &&
           fabs(looks->mean[at] - levels->of[colour]) > WRONG * contrast_of(levels);
}

/* Takes a square into an area. */
static void take_square(struct looks *looks, const struct layout *layout, const struct levels *levels, int at,
                        struct area *area) {
    bool is_wide = true;
    for (int down = -1; down <= 1; down++)
        for (int right = -1; right <= 1; right++) {
            int here = at + down * looks->extent.wide + right;
            is_wide = is_wide && looks->is_flat[here] != 0;
            area->is_saturated = area->is_saturated && looks->least[here] >= SATURATED;
            area->wrong += !looks->is_in_area[here] && is_wrong(looks, layout, levels, here);
            looks->is_in_area[here] = 1;
        }
    area->is_wide = area->is_wide || is_wide;
}

/* Gathers the area of a flat square, whose squares are then flat no more. */
static struct area gather(struct looks *looks, const struct layout *layout, const struct levels *levels, int first) {
    struct area area = {.is_saturated = true};
    int count = 0, wide = looks->extent.wide;
    const int beside[] = {-1, 1, -wide, wide};
    memset(looks->is_in_area, 0, (size_t)count_of(looks));
    looks->pending[count++] = first, looks->is_flat[first] = 2;
    for (int k = 0; k < count; k++) {
        take_square(looks, layout, levels, looks->pending[k], &area);
        for (int way = 0; way < 4; way++) {
            int next = looks->pending[k] + beside[way];
            if (looks->is_flat[next] == 1)
                looks->pending[count++] = next, looks->is_flat[next] = 2;
        }
    }
    for (int k = 0; k < count; k++)
        looks->is_flat[looks->pending[k]] = 0;
    return area;
}

/* ---- Doubt */

/* Marks the modules of a symbol that the area has, and those so near to it. */
static void mark_area(const struct looks *looks, const struct layout *layout, int beside, uint8_t *doubtful) {
    for (int y = 0; y < layout->extent.high; y++)
        for (int x = 0; x < layout->extent.wide; x++) {
            const uint8_t *at = looks->is_in_area + (y + RING) * looks->extent.wide + x + RING;
            for (int down = -beside; down <= beside; down++)
                for (int right = -beside; right <= beside; right++)
                    doubtful[y * layout->extent.wide + x] |= at[down * looks->extent.wide + right];
        }
}

/* Marks the flat areas that are torn off, under a blot or in a glare. */
static void mark_flat(struct looks *looks, const struct layout *layout, const struct levels *levels, int beside,
                      uint8_t *doubtful) {
    find_flat(looks, FLAT * contrast_of(levels));
    for (int k = 0; k < count_of(looks); k++) {
        if (looks->is_flat[k] != 1)
            continue;
        struct area area = gather(looks, layout, levels, k);
        if (area.wrong >= LEAST_WRONG || area.is_wide || (area.is_saturated && !levels->is_saturated))
            mark_area(looks, layout, beside, doubtful);
    }
}

int find_doubt(struct looks *looks, const struct layout *layout, int beside, uint8_t *doubtful) {
    struct levels levels;
    int wide = layout->extent.wide, count = 0;
    for (int k = 0; k < wide * layout->extent.high; k++)
        doubtful[k] |= looks->is_outside[(k / wide + RING) * looks->extent.wide + k % wide + RING];
    if (find_levels(looks, layout, &levels))
        mark_flat(looks, layout, &levels, beside, doubtful);
    for (int k = 0; k < wide * layout->extent.high; k++)
        count += doubtful[k];
    return count;
}
