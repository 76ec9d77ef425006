#include "texture.h"

#include <stdlib.h>
#include <string.h>

#include "spectrum.h"

enum { TILE = WINDOW_SIDE / 2, LEAST_STEEPNESS = 3, MOST_STEEP = 64, ROUNDS = 3 };

struct tiles {
    int across, down;
    uint32_t *sums;
};

/* Adds the columns of a row of tiles. In lanes. */
static void add_rows(const struct plane *steep, int first, uint16_t *restrict columns) {
    memset(columns, 0, (size_t)steep->width * sizeof *columns);
    for (int y = first; y < first + TILE && y < steep->height; y++) {
        const uint8_t *restrict row = pixel_of(steep, 0, y);
        for (int x = 0; x < steep->width; x++)
            columns[x] = (uint16_t)(columns[x] + (row[x] < MOST_STEEP ? row[x] : MOST_STEEP));
    }
}

/* `columns` has room for a row. */
static void sum_tiles(const struct plane *steep, struct limit *limit, uint16_t *columns, struct tiles *tiles) {
    limit_spend(limit, (int64_t)steep->width * steep->height);
    for (int row = 0; row < tiles->down && !limit_reached(limit); row++) {
        uint32_t *sums = tiles->sums + (size_t)row * (size_t)tiles->across;
        add_rows(steep, row * TILE, columns);
        for (int x = 0; x < steep->width; x++)
            sums[x / TILE] += columns[x];
    }
}

/* How steep a window of two by two tiles is. */
static double steepness_of(const struct tiles *tiles, int column, int row) {
    double total = 0;
    for (int y = row; y < row + 2; y++)
        for (int x = column; x < column + 2; x++)
            if (x >= 0 && y >= 0 && x < tiles->across && y < tiles->down)
                total += tiles->sums[(size_t)y * (size_t)tiles->across + (size_t)x];
    return total / (WINDOW_SIDE * WINDOW_SIDE);
}

static bool is_steepest(const struct tiles *tiles, int column, int row, double here) {
    for (int y = row - 1; y <= row + 1; y++)
        for (int x = column - 1; x <= column + 1; x++)
            if (steepness_of(tiles, x, y) > here)
                return false;
    return true;
}

static int within(int at, int count) {
    int last = count > WINDOW_SIDE ? count - WINDOW_SIDE : 0;
    return at < 0 ? 0 : at > last ? last : at;
}

/* The sums of a row of a window, and of its pixels times twice how far right their middles are. In lanes. */
static void sum_row(const uint8_t *row, int first, int count, int64_t *total, int64_t *right) {
    int sum = 0, moment = 0;
    for (int x = 0; x < count; x++) {
        int here = row[x] < MOST_STEEP ? row[x] : MOST_STEEP;
        sum += here, moment += here * (2 * x + 1);
    }
    *total += sum, *right += moment + (int64_t)2 * first * sum;
}

/* Moves a spot to the middle of what is steep in its window. */
static void centre(const struct plane *steep, struct spot *spot) {
    for (int round = 0; round < ROUNDS; round++) {
        int64_t total = 0, right = 0, down = 0;
        int wide = spot->x + WINDOW_SIDE < steep->width ? WINDOW_SIDE : steep->width - spot->x;
        for (int y = spot->y; y < spot->y + WINDOW_SIDE && y < steep->height; y++) {
            int64_t before = total;
            sum_row(pixel_of(steep, spot->x, y), spot->x, wide, &total, &right);
            down += (total - before) * (2 * y + 1);
        }
        if (total == 0)
            return;
        spot->x = within((int)(right / 2.0 / (double)total) - WINDOW_SIDE / 2, steep->width);
        spot->y = within((int)(down / 2.0 / (double)total) - WINDOW_SIDE / 2, steep->height);
    }
}

static void keep_spot(struct spot *out, int room, int *count, struct spot spot) {
    int at = *count;
    while (at > 0 && out[at - 1].steepness < spot.steepness)
        at--;
    if (at == room)
        return;
    *count += *count < room;
    for (int k = *count - 1; k > at; k--)
        out[k] = out[k - 1];
    out[at] = spot;
}

int find_spots(const struct plane *steep, int most, struct limit *limit, struct spot *out, int room) {
    struct tiles tiles = {.across = (steep->width + TILE - 1) / TILE, .down = (steep->height + TILE - 1) / TILE};
    int count = 0;
    uint16_t *columns = malloc((size_t)steep->width * sizeof *columns);
    tiles.sums = calloc((size_t)tiles.across * (size_t)tiles.down, sizeof *tiles.sums);
    bool has_room = tiles.sums != NULL && columns != NULL;
    if (has_room)
        sum_tiles(steep, limit, columns, &tiles);
    free(columns);
    for (int row = -1; row < tiles.down && has_room; row++)
        for (int column = -1; column < tiles.across; column++) {
            double here = steepness_of(&tiles, column, row);
            if (here >= LEAST_STEEPNESS && here <= most && is_steepest(&tiles, column, row, here))
                keep_spot(out, room, &count,
                          (struct spot){within(column * TILE, steep->width), within(row * TILE, steep->height), here});
        }
    free(tiles.sums);
    for (int k = 0; k < count; k++)
        centre(steep, &out[k]);
    return has_room ? count : -1;
}
