#include "other.h"

#include <stdlib.h>
#include <string.h>

#include "bars.h"
#include "squares.h"

enum { ROWS_APART = 2, BARS_APART = 6, LEAST_SIDE = 16, LARGE = 2500000 }; /* pixels */
static const struct surroundings AROUND = {8, 2, 24, 0};

/* Room for a line of pixels, and for its runs both ways. */
struct room {
    uint8_t *pixels;
    int *ends, *back;
};

/* What has been seen in a plane: bars along rows and down columns, both ways, and squares within squares. */
struct seen {
    struct bars bars[4][MOST_BARS];
    struct squares squares;
    int tried;
};

static bool room_make(int pixels, struct room *out) {
    size_t most = (size_t)pixels + 2;
    *out = (struct room){malloc(most), malloc(most * sizeof *out->ends), malloc(most * sizeof *out->back)};
    return out->pixels != NULL && out->ends != NULL && out->back != NULL;
}

static void room_free(struct room *room) {
    free(room->pixels);
    free(room->ends);
    free(room->back);
}

static struct runs runs_along(const uint8_t *line, int length, int *ends) {
    struct runs runs = {ends, 0};
    for (int at = 0; at < length; runs.count++) {
        const uint8_t *next = memchr(line + at, runs.count % 2 == 0, (size_t)(length - at));
        at = next == NULL ? length : (int)(next - line);
        ends[runs.count] = at;
    }
    return runs;
}

/* The same runs from the other end. */
static struct runs runs_back(const struct runs *runs, int length, int *ends) {
    struct runs back = {ends, 0};
    if (runs->count % 2 == 0)
        ends[back.count++] = 0;
    for (int run = runs->count - 1; run >= 0; run--)
        ends[back.count++] = length - begin_of(runs, run);
    return back;
}

static void look_both_ways(const struct runs *runs, int length, int line, const struct room *room,
                           struct bars (*seen)[MOST_BARS]) {
    struct runs back = runs_back(runs, length, room->back);
    look_for_bars(runs, line, seen[0]);
    look_for_bars(&back, line, seen[1]);
}

/* Looks down columns for bar codes. */
static void look_down(const struct plane *dark, const struct room *room, struct seen *seen) {
    for (int x = 0; x < dark->width; x += BARS_APART) {
        for (int y = 0; y < dark->height; y++)
            room->pixels[y] = *pixel_of(dark, x, y);
        struct runs runs = runs_along(room->pixels, dark->height, room->ends);
        look_both_ways(&runs, dark->height, x, room, &seen->bars[2]);
    }
}

/* Where a bar code lies that was seen in one of four ways. */
static void lay_bars(const struct plane *dark, const struct bars *bars, int way, ecc200_sample_point out[4]) {
    for (int corner = 0; corner < 4; corner++) {
        int is_last = corner > 1, along = corner == 1 || corner == 2 ? bars->to[is_last] : bars->from[is_last],
            line = is_last ? bars->last : bars->first;
        along = way % 2 == 0 ? along : (way < 2 ? dark->width : dark->height) - along;
        out[corner] = way < 2 ? (ecc200_sample_point){along, line} : (ecc200_sample_point){line, along};
    }
}

/* The code that a plane of dark pixels shows, and where; NULL if there is none. */
static const char *code_in(const struct plane *dark, const struct room *room, ecc200_sample_point corners[4]) {
    struct seen seen = {0};
    for (int y = 0; y < dark->height; y += ROWS_APART) {
        struct runs runs = runs_along(pixel_of(dark, 0, y), dark->width, room->ends);
        if (crosses_aztec_code(dark, &runs, y, &seen.tried, corners))
            return "an Aztec code";
        look_for_squares(dark, &runs, y, &seen.squares);
        if (y % BARS_APART == 0)
            look_both_ways(&runs, dark->width, y, room, seen.bars);
    }
    if (make_qr_code(dark, &seen.squares, corners))
        return "a QR code";
    look_down(dark, room, &seen);
    for (int way = 0; way < 4; way++) {
        const struct bars *bars = highest_bars(seen.bars[way]);
        if (bars != NULL) {
            lay_bars(dark, bars, way, corners);
            return bars->name;
        }
    }
    return NULL;
}

/* The same of a level of the picture, unless it is so large that its modules are more than pixels. */
static const char *code_at(const struct plane *level, const struct room *room, ecc200_sample_point corners[4]) {
    struct limit limit = limit_from_now(ECC200_SAMPLE_ANY_TIME, ECC200_SAMPLE_ANY_EFFORT, 0);
    struct plane dark;
    if ((int64_t)level->width * level->height > LARGE || !plane_darken(level, AROUND, &limit, &dark))
        return NULL;
    const char *code = code_in(&dark, room, corners);
    plane_free(&dark);
    return code;
}

const char *other_code(const struct plane *picture, ecc200_sample_point corners[4]) {
    struct limit limit = limit_from_now(ECC200_SAMPLE_ANY_TIME, ECC200_SAMPLE_ANY_EFFORT, 0);
    struct plane level = *picture;
    struct room room;
    const char *code = NULL;
    level.owned = NULL;
    bool is_made = room_make(picture->width > picture->height ? picture->width : picture->height, &room);
    for (double scale = 1; is_made && level.width >= LEAST_SIDE && level.height >= LEAST_SIDE; scale *= 2) {
        struct plane half;
        code = code_at(&level, &room, corners);
        for (int corner = 0; code != NULL && corner < 4; corner++)
            corners[corner].x *= scale, corners[corner].y *= scale;
        is_made = code == NULL && plane_halve(&level, &limit, &half);
        plane_free(&level);
        level = is_made ? half : level;
    }
    plane_free(&level);
    room_free(&room);
    return code;
}
