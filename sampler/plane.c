#include "plane.h"

#include <stdlib.h>
#include <string.h>

enum { ROWS_AT_A_TIME = 32 };

bool leaves(struct limit *limit, int row, int width) {
    if (row % ROWS_AT_A_TIME > 0)
        return true;
    limit_spend(limit, (int64_t)ROWS_AT_A_TIME * width);
    return !limit_reached(limit);
}

uint8_t *plane_make(int width, int height, int frame, struct plane *out) {
    size_t stride = (size_t)width + 2 * (size_t)frame;
    uint8_t *owned = malloc(((size_t)height + 2 * (size_t)frame) * stride);
    uint8_t *first = owned != NULL ? owned + (size_t)frame * (stride + 1) : NULL;
    *out = (struct plane){width, height, frame, stride, first, owned};
    return first;
}

void plane_free(struct plane *plane) {
    free(plane->owned);
    *plane = (struct plane){0};
}

bool is_made(bool is_whole, struct plane *plane) {
    if (!is_whole)
        plane_free(plane);
    return is_whole;
}

bool plane_invert(const struct plane *from, struct limit *limit, struct plane *out) {
    uint8_t *to = plane_make(from->width, from->height, 0, out);
    int y = 0;
    for (; to != NULL && y < from->height && leaves(limit, y, from->width); y++, to += out->stride) {
        const uint8_t *row = pixel_of(from, 0, y);
        for (int x = 0; x < from->width; x++)
            to[x] = (uint8_t)(255 - row[x]);
    }
    return is_made(to != NULL && y == out->height, out);
}

bool plane_halve(const struct plane *from, struct limit *limit, struct plane *out) {
    uint8_t *to = plane_make(from->width / 2, from->height / 2, 0, out);
    int y = 0;
    for (; to != NULL && y < out->height && leaves(limit, y, from->width); y++, to += out->stride) {
        const uint8_t *row = pixel_of(from, 0, 2 * y), *below = row + from->stride;
        for (int x = 0; x < out->width; x++)
            to[x] = (uint8_t)((row[2 * x] + row[2 * x + 1] + below[2 * x] + below[2 * x + 1] + 2) >> 2);
    }
    return is_made(to != NULL && y == out->height, out);
}

bool plane_steepen(const struct plane *from, struct limit *limit, struct plane *out) {
    uint8_t *to = plane_make(from->width, from->height, 0, out);
    int y = 0;
    for (; to != NULL && y + 1 < from->height && leaves(limit, y, from->width); y++, to += out->stride) {
        const uint8_t *row = pixel_of(from, 0, y), *below = row + from->stride;
        for (int x = 0; x + 1 < from->width; x++)
            to[x] = (uint8_t)((abs(row[x] - below[x + 1]) + abs(row[x + 1] - below[x])) / 2);
        to[from->width - 1] = 0;
    }
    bool is_whole = to != NULL && y + 1 >= from->height;
    if (is_whole)
        memset(to, 0, out->stride);
    return is_made(is_whole, out);
}

/* ---- Smooth, and framed */

/* A side of a plane: its first pixel, the way to the next one along it, and the way inwards, in bytes. */
struct side {
    uint8_t *first;
    ptrdiff_t along, inwards;
    int count, depth;
};

enum { STRETCH = 8, DEEPEST = 16 }; /* pixels of a side that are looked at together, and how deep */

/* The lightest of the pixels of a side from `first` on, a stretch of them. */
static uint8_t lightest_of(const struct side *side, int first) {
    uint8_t most = 0;
    for (int k = first; k < first + STRETCH && k < side->count; k++)
        for (int deep = 0; deep < DEEPEST && deep < side->depth; deep++) {
            uint8_t here = side->first[k * side->along + deep * side->inwards];
            most = here > most ? here : most;
        }
    return most;
}

/* Makes the frame beside a side, and its corner beyond the end, as light as the lightest pixel of three stretches. */
static void frame_side(struct side side) {
    uint8_t before = 0, here = lightest_of(&side, 0), light = here;
    for (int first = 0; first < side.count; first += STRETCH) {
        uint8_t after = lightest_of(&side, first + STRETCH);
        light = before > here ? before : here;
        light = after > light ? after : light;
        for (int k = first; k < first + STRETCH && k < side.count; k++)
            side.first[k * side.along - side.inwards] = light;
        before = here, here = after;
    }
    side.first[side.count * side.along - side.inwards] = light;
}

/* Fills the frame, around each way in turn, so that each side makes the corner at its end. */
static void frame_plane(uint8_t *first, const struct plane *plane) {
    int width = plane->width, height = plane->height;
    ptrdiff_t down = (ptrdiff_t)plane->stride;
    uint8_t *last = first + (height - 1) * down + width - 1;
    frame_side((struct side){first, 1, down, width, height});
    frame_side((struct side){first + width - 1, down, -1, height, width});
    frame_side((struct side){last, -1, -down, width, height});
    frame_side((struct side){first + (height - 1) * down, -down, 1, height, width});
}

/* Smooths all rows that there is time for, and returns their number. `sums` has room for a row and one more pixel on
 * each side. */
static int smooth_rows(const struct plane *from, struct limit *limit, uint16_t *sums, uint8_t *to, size_t stride) {
    int width = from->width, y = 0;
    for (; y < from->height && leaves(limit, y, from->width); y++, to += stride) {
        const uint8_t *row = pixel_of(from, 0, y);
        const uint8_t *above = y > 0 ? row - from->stride : row,
                      *below = y + 1 < from->height ? row + from->stride : row;
        for (int x = 0; x < width; x++)
            sums[x + 1] = (uint16_t)(above[x] + 2 * row[x] + below[x]);
        sums[0] = sums[1], sums[width + 1] = sums[width];
        for (int x = 0; x < width; x++)
            to[x] = (uint8_t)((sums[x] + 2 * sums[x + 1] + sums[x + 2] + 8) >> 4);
    }
    return y;
}

bool plane_smooth(const struct plane *from, struct limit *limit, struct plane *out) {
    uint16_t *sums = malloc(sizeof *sums * (size_t)(from->width + 2));
    uint8_t *first = plane_make(from->width, from->height, 1, out);
    bool is_whole = sums != NULL && first != NULL && smooth_rows(from, limit, sums, first, out->stride) == from->height;
    free(sums);
    if (is_whole)
        frame_plane(first, out);
    return is_made(is_whole, out);
}

/* ---- The median and the darkest of nine */

static inline uint8_t least_of(uint8_t a, uint8_t b) {
    return a < b ? a : b;
}

static inline uint8_t most_of(uint8_t a, uint8_t b) {
    return a > b ? a : b;
}

static inline uint8_t median_of(uint8_t a, uint8_t b, uint8_t c) {
    return most_of(least_of(a, b), least_of(most_of(a, b), c));
}

/* The median of nine is that of the most of the least, the median of the medians and the least of the most of three
 * columns. */
static void calm_row(const uint8_t *row, ptrdiff_t stride, int width, uint8_t *columns, uint8_t *to) {
    uint8_t *least = columns, *median = least + width + 2, *most = median + width + 2;
    for (int x = 0; x < width + 2; x++) {
        uint8_t above = row[x - 1 - stride], here = row[x - 1], below = row[x - 1 + stride];
        least[x] = least_of(least_of(above, here), below);
        median[x] = median_of(above, here, below);
        most[x] = most_of(most_of(above, here), below);
    }
    for (int x = 0; x < width; x++)
        to[x] = median_of(most_of(most_of(least[x], least[x + 1]), least[x + 2]),
                          median_of(median[x], median[x + 1], median[x + 2]),
                          least_of(least_of(most[x], most[x + 1]), most[x + 2]));
}

/* The darkest of nine is that of the darkest of three columns. */
static void thicken_row(const uint8_t *row, ptrdiff_t stride, int width, uint8_t *columns, uint8_t *to) {
    for (int x = 0; x < width + 2; x++)
        columns[x] = least_of(least_of(row[x - 1 - stride], row[x - 1]), row[x - 1 + stride]);
    for (int x = 0; x < width; x++)
        to[x] = least_of(least_of(columns[x], columns[x + 1]), columns[x + 2]);
}

/* What comes of the rows of a plane with a frame, each with those above and below. `row_of` has room for three rows of
 * columns. */
static bool by_rows(const struct plane *from, struct limit *limit,
                    void (*row_of)(const uint8_t *, ptrdiff_t, int, uint8_t *, uint8_t *), struct plane *out) {
    uint8_t *first = plane_make(from->width, from->height, 1, out), *columns = malloc(3 * ((size_t)from->width + 2)),
            *to = first;
    bool has_room = first != NULL && columns != NULL;
    int y = 0;
    for (; has_room && y < from->height && leaves(limit, y, from->width); y++, to += out->stride)
        row_of(pixel_of(from, 0, y), (ptrdiff_t)from->stride, from->width, columns, to);
    bool is_whole = has_room && y == from->height;
    free(columns);
    if (is_whole)
        frame_plane(first, out);
    return is_made(is_whole, out);
}

bool plane_calm(const struct plane *from, struct limit *limit, struct plane *out) {
    return by_rows(from, limit, calm_row, out);
}

bool plane_thicken(const struct plane *from, struct limit *limit, struct plane *out) {
    return by_rows(from, limit, thicken_row, out);
}

/* ---- Dots: what is filled when all lines through it are closed, each by the lightest and then the darkest of it */

enum { STRIP = 64, DIRECTIONS = 4, GAIN = 3 };

/* Some rows of a plane, with a rim of the nearest pixels, and room for what comes of them. */
struct strip {
    int wide, rim, rows;
    size_t count; /* pixels, the rim included */
    uint8_t *kept, *lines[2];
};

static bool strip_make(int width, int rows, int rim, struct strip *out) {
    size_t wide = (size_t)width + 2 * (size_t)rim, count = wide * ((size_t)rows + 2 * (size_t)rim);
    uint8_t *room = malloc(3 * count);
    *out = (struct strip){(int)wide, rim, rows, count, room, {NULL, NULL}};
    if (room != NULL)
        out->lines[0] = room + count, out->lines[1] = room + 2 * count;
    return room != NULL;
}

/* Takes the rows from `first` on. */
static void fill_strip(const struct plane *from, int first, struct strip *strip) {
    uint8_t *to = strip->kept;
    for (int y = first - strip->rim; y < first + strip->rows + strip->rim; y++, to += strip->wide) {
        const uint8_t *row = pixel_of(from, 0, nearest_pixel(y, from->height, 0));
        memset(to, row[0], (size_t)strip->rim);
        memcpy(to + strip->rim, row, (size_t)from->width);
        memset(to + strip->rim + from->width, row[from->width - 1], (size_t)strip->rim);
    }
}

/* The lighter of each pixel and the one so far after it. */
static void lighten(const uint8_t *restrict from, size_t count, size_t away, uint8_t *restrict to) {
    for (size_t k = 0; k < count - away; k++)
        to[k] = most_of(from[k], from[k + away]);
    memcpy(to + count - away, from + count - away, away);
}

/* The darker of each pixel and the one so far before it. */
static void deepen(const uint8_t *restrict from, size_t count, size_t away, uint8_t *restrict to) {
    memcpy(to, from, away);
    for (size_t k = away; k < count; k++)
        to[k] = least_of(from[k], from[k - away]);
}

/* Takes all lines of so many pixels, each `step` after the one before, to the lightest of them, or to the darkest.
 * Returns where that is. */
static const uint8_t *spread(struct strip *strip, const uint8_t *from, bool is_light, size_t step, size_t pixels) {
    for (size_t span = 1, more; span < pixels; span += more) {
        uint8_t *to = strip->lines[from == strip->lines[0]];
        more = span < pixels - span ? span : pixels - span;
        (is_light ? lighten : deepen)(from, strip->count, more * step, to);
        from = to;
    }
    return from;
}

/* Darkens a row by what its closed lines fill: in `to`, by the least of what all directions fill. */
static void take_filled(const uint8_t *restrict kept, const uint8_t *restrict closed, int width, uint8_t *restrict to) {
    for (int x = 0; x < width; x++)
        to[x] = least_of(to[x], (uint8_t)(closed[x] - kept[x]));
}

static void draw_dots(uint8_t *row, int width) {
    for (int x = 0; x < width; x++)
        row[x] = row[x] < 255 / GAIN ? (uint8_t)(255 - GAIN * row[x]) : 0;
}

/* Makes the dots of a strip, from row `first` on. */
static void find_dots(struct strip *strip, int reach, int width, int rows, uint8_t *to, size_t stride) {
    size_t wide = (size_t)strip->wide, steps[DIRECTIONS] = {1, wide - 1, wide, wide + 1};
    size_t first = (size_t)strip->rim * (wide + 1);
    for (int y = 0; y < rows; y++)
        memset(to + (size_t)y * stride, 255, (size_t)width);
    for (int k = 0; k < DIRECTIONS; k++) {
        size_t pixels = 2 * (size_t)reach + 1;
        const uint8_t *lightest = spread(strip, strip->kept, true, steps[k], pixels);
        const uint8_t *closed = spread(strip, lightest, false, steps[k], pixels);
        for (int y = 0; y < rows; y++)
            take_filled(strip->kept + first + (size_t)y * wide, closed + first + (size_t)y * wide, width,
                        to + (size_t)y * stride);
    }
    for (int y = 0; y < rows; y++)
        draw_dots(to + (size_t)y * stride, width);
}

bool plane_dots(const struct plane *from, int reach, struct limit *limit, struct plane *out) {
    enum { WORK_OF_A_PIXEL = 4 };
    struct strip strip;
    uint8_t *first = plane_make(from->width, from->height, 1, out);
    bool has_room = strip_make(from->width, STRIP, 2 * reach, &strip) && first != NULL;
    int y = 0;
    for (; has_room && y < from->height && !limit_reached(limit); y += STRIP) {
        int rows = from->height - y < STRIP ? from->height - y : STRIP;
        limit_spend(limit, (int64_t)WORK_OF_A_PIXEL * rows * from->width);
        fill_strip(from, y, &strip);
        find_dots(&strip, reach, from->width, rows, first + (size_t)y * out->stride, out->stride);
    }
    bool is_whole = has_room && y >= from->height;
    free(strip.kept);
    if (is_whole)
        frame_plane(first, out);
    return is_made(is_whole, out);
}

/* ---- Without what is small: windows of which a part lies outside don't count, as that is as light as can be */

bool plane_close(const struct plane *from, int least, int most, struct limit *limit, struct plane *out) {
    enum { WORK_OF_A_PIXEL = 3 };
    struct strip strip;
    uint8_t *to = plane_make(from->width, from->height, 0, out);
    bool has_room = strip_make(from->width, from->height, least + most, &strip) && to != NULL;
    limit_spend(limit, (int64_t)WORK_OF_A_PIXEL * from->width * from->height);
    bool is_whole = has_room && !limit_reached(limit);
    if (is_whole) {
        size_t wide = (size_t)strip.wide, width = (size_t)from->width, first = (size_t)strip.rim * (wide + 1);
        memset(strip.kept, 255, strip.count);
        for (int y = 0; y < from->height; y++)
            memcpy(strip.kept + first + (size_t)y * wide, pixel_of(from, 0, y), width);
        const uint8_t *closed = strip.kept;
        const size_t pixels[] = {(size_t)least, (size_t)(least + most - 1), (size_t)most};
        for (int k = 0; k < 6; k++)
            closed = spread(&strip, closed, k / 2 == 1, k % 2 == 0 ? 1 : wide, pixels[k / 2]);
        for (int y = 0; y < from->height; y++)
            memcpy(to + (size_t)y * width, closed + first + (size_t)y * wide, width);
    }
    free(strip.kept);
    return is_made(is_whole, out);
}

/* ---- Darker than the surroundings: than the middle between the lightest and the darkest pixel of the tiles around. */

/* The least and the most of each of some pixels or tiles. */
struct ranges {
    uint8_t *least, *most;
};

/* The ranges of all tiles of a plane, row by row, those of the squares of tiles around each, and room for a row of
 * tiles, with as many on both sides as squares reach, and for two rows of pixels. */
struct tiles {
    struct surroundings by;
    int across, down;
    struct ranges each, squares, row, columns;
    uint8_t *owned;
};

/* Takes two times so many bytes of what is owned. */
static struct ranges take_room(uint8_t **room, size_t count) {
    struct ranges ranges = {*room, *room + count};
    *room += 2 * count;
    return ranges;
}

static bool tiles_make(const struct plane *from, struct surroundings by, struct tiles *out) {
    *out = (struct tiles){.by = by,
                          .across = (from->width + by.tile - 1) / by.tile,
                          .down = (from->height + by.tile - 1) / by.tile};
    size_t across = (size_t)out->across, count = across * (size_t)out->down, row = across + 2 * (size_t)by.around,
           columns = across * (size_t)by.tile;
    uint8_t *room = out->owned = malloc(2 * (2 * count + row + 2 * columns));
    if (room == NULL)
        return false;
    out->each = take_room(&room, count), out->squares = take_room(&room, count);
    out->row = take_room(&room, row), out->columns = take_room(&room, columns);
    return true;
}

static struct ranges ranges_from(struct ranges ranges, size_t first) {
    return (struct ranges){ranges.least + first, ranges.most + first};
}

static void empty(struct ranges ranges, size_t count) {
    memset(ranges.least, 255, count);
    memset(ranges.most, 0, count);
}

/* Widens ranges by others, or by pixels. In lanes, so it says that nothing overlaps. */
static void widen(const uint8_t *restrict darkest, const uint8_t *restrict lightest, int count, uint8_t *restrict least,
                  uint8_t *restrict most) {
    for (int k = 0; k < count; k++) {
        least[k] = least_of(darkest[k], least[k]);
        most[k] = most_of(lightest[k], most[k]);
    }
}

/* The ranges of a row of tiles: of its columns, and then of more and more of these, up to the first one for the
 * lightest, and to the last one for the darkest. */
static void find_row(const struct plane *from, const struct tiles *tiles, int row) {
    int side = tiles->by.tile, last = (row + 1) * side < from->height ? (row + 1) * side : from->height;
    size_t wide = (size_t)tiles->across * (size_t)side;
    struct ranges columns = tiles->columns, more = ranges_from(columns, 2 * wide),
                  each = ranges_from(tiles->each, (size_t)row * (size_t)tiles->across);
    empty(columns, wide);
    for (int y = row * side; y < last; y++)
        widen(pixel_of(from, 0, y), pixel_of(from, 0, y), from->width, columns.least, columns.most);
    for (int away = side / 2; away > 0; away /= 2) {
        struct ranges before = columns;
        deepen(columns.least, wide, (size_t)away, more.least);
        lighten(columns.most, wide, (size_t)away, more.most);
        columns = more, more = before;
    }
    for (int tile = 0; tile < tiles->across; tile++) {
        each.least[tile] = columns.least[(tile + 1) * side - 1];
        each.most[tile] = columns.most[tile * side];
    }
}

static bool find_ranges(const struct plane *from, struct limit *limit, const struct tiles *tiles) {
    int row = 0;
    for (; row < tiles->down && leaves(limit, row * tiles->by.tile, from->width); row++)
        find_row(from, tiles, row);
    return row == tiles->down;
}

/* The ranges of the squares of tiles around those of a row. */
static void join_row(const struct tiles *tiles, int row) {
    int around = tiles->by.around, first = row > around ? row - around : 0,
        last = row + around < tiles->down ? row + around : tiles->down - 1;
    size_t across = (size_t)tiles->across;
    struct ranges middle = ranges_from(tiles->row, (size_t)around),
                  squares = ranges_from(tiles->squares, (size_t)row * across);
    empty(tiles->row, across + 2 * (size_t)around);
    empty(squares, across);
    for (int k = first; k <= last; k++) {
        struct ranges each = ranges_from(tiles->each, (size_t)k * across);
        widen(each.least, each.most, tiles->across, middle.least, middle.most);
    }
    for (int k = 0; k <= 2 * around; k++)
        widen(tiles->row.least + k, tiles->row.most + k, tiles->across, squares.least, squares.most);
}

/* The pixels of a tile below this are dark. */
static uint8_t limit_of(const struct tiles *tiles, int row, int column) {
    const struct surroundings *by = &tiles->by;
    size_t at = (size_t)row * (size_t)tiles->across + (size_t)column;
    int least = tiles->squares.least[at], most = tiles->squares.most[at], contrast = most - least;
    bool is_clear = by->most_contrast > 0 && contrast > by->most_contrast;
    return (uint8_t)(contrast < by->least_contrast || is_clear ? 0 : (most + least) / 2);
}

/* Marks what is dark in a row of pixels, by a limit for each. */
static void mark_row(const uint8_t *restrict row, const uint8_t *restrict limits, int width, uint8_t *restrict to) {
    for (int x = 0; x < width; x++)
        to[x] = row[x] < limits[x];
}

/* Makes the frame of a plane light, of which this is the first pixel. */
static void lighten_frame(const struct plane *plane, uint8_t *first) {
    uint8_t *row = first - plane->stride - 1;
    memset(row, 0, plane->stride);
    for (int y = 0; y < plane->height; y++)
        row += plane->stride, row[0] = row[plane->stride - 1] = 0;
    memset(row + plane->stride, 0, plane->stride);
}

/* Marks what is dark by the limits of the tiles. `limits` has room for those of a row. */
static bool mark_dark(const struct plane *from, struct limit *limit, const struct tiles *tiles, uint8_t *limits,
                      uint8_t *to, size_t stride) {
    int side = tiles->by.tile, width = from->width, y = 0;
    for (; y < from->height && leaves(limit, y, width); y++, to += stride) {
        for (int column = 0; y % side == 0 && column < tiles->across; column++)
            memset(limits + column * side, limit_of(tiles, y / side, column), (size_t)side);
        mark_row(pixel_of(from, 0, y), limits, width, to);
    }
    return y == from->height;
}

bool plane_darken(const struct plane *from, struct surroundings by, struct limit *limit, struct plane *out) {
    struct tiles tiles;
    bool has_room = tiles_make(from, by, &tiles);
    uint8_t *to = plane_make(from->width, from->height, 1, out), *limits = malloc((size_t)(tiles.across * by.tile));
    bool is_whole = has_room && to != NULL && limits != NULL && find_ranges(from, limit, &tiles);
    for (int row = 0; row < tiles.down && is_whole; row++)
        join_row(&tiles, row);
    is_whole = is_whole && mark_dark(from, limit, &tiles, limits, to, out->stride);
    if (is_whole)
        lighten_frame(out, to);
    free(limits);
    free(tiles.owned);
    return is_made(is_whole, out);
}
