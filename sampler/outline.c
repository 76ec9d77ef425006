#include "outline.h"

#include <math.h>
#include <stdlib.h>
#include <string.h>

enum { LEAST_STEPS = 40, MOST_STEPS = 1 << 20, MOST_PENDING = 64 };
enum { WORK_OF_A_STEP = 10, PIECES_AT_A_UNIT = 3 }; /* along an outline; of those that are passed over, to be joined */
static const double BEND = 1.4; /* pixels by which a straight piece may leave its chord, however short it is */

struct corner {
    int x, y;
};

/* A corner of the path at which it turns, and its number there: from one to the next the path is straight. */
struct turn {
    struct corner at;
    int step;
};

/* What is added to a dark pixel while lines are looked for, if its left side was passed on the way up. */
enum { SEEN = 2 };

struct tracing {
    struct plane *dark;
    struct turn *turns;      /* with both ends of the path */
    int count, turn_count, room;
    double least, bend;
    struct limit *limit;
    struct lines *lines;
};

/* Takes note of a turn of the path, or of its end. False if there is no memory. */
static bool push(struct tracing *tracing, struct corner at, int step) {
    if (tracing->turn_count == tracing->room) {
        int room = tracing->room > 0 ? 2 * tracing->room : 1024;
        struct turn *turns = realloc(tracing->turns, (size_t)room * sizeof *turns);
        if (turns == NULL)
            return false;
        tracing->turns = turns, tracing->room = room;
    }
    tracing->turns[tracing->turn_count++] = (struct turn){at, step};
    return true;
}

/* Goes around a dark area along the sides of its pixels, the area on the right, from the upper left corner of pixel (x,
 * y), whose left side is the uppermost one of the path, until it has passed that upwards. So the path turns at that
 * corner, at which the first turn stands, and once more behind the last one. */
static bool trace(struct tracing *tracing, int x, int y) {
    ptrdiff_t row = (ptrdiff_t)tracing->dark->stride;
    /* up, right, down, left: a step, and the pixels ahead on the left and on the right */
    const struct {
        int x, y;
        ptrdiff_t step, left, right;
    } ways[] = {{0, -1, -row, -row - 1, -row}, {1, 0, 1, -row, 0}, {0, 1, row, 0, -1}, {-1, 0, -1, -1, -row - 1}};
    uint8_t *start = own_pixel_of(tracing->dark, x, y), *at = start; /* to the lower right of the corner */
    struct corner corner = {x, y};
    unsigned way = 0;
    int count = 0;
    tracing->turn_count = 0;
    do {
        if (count < MOST_STEPS && !push(tracing, corner, count))
            return false;
        way = (at[ways[way].left] != 0 ? way + 3 : way + 1) % 4;
        ptrdiff_t step = ways[way].step, left = ways[way].left, right = ways[way].right;
        int steps = 0;
        do {
            if (way == 0)
                at[-row] |= SEEN;
            at += step, steps++;
        } while (at[left] == 0 && at[right] != 0);
        corner.x += steps * ways[way].x, corner.y += steps * ways[way].y;
        count = count + steps < MOST_STEPS ? count + steps : MOST_STEPS;
    } while (at != start || way != 0);
    tracing->count = count;
    limit_spend(tracing->limit, WORK_OF_A_STEP * (int64_t)count);
    return push(tracing, tracing->turns[0].at, count);
}

/* Sums over corners of a path. They are whole numbers, so none is rounded. */
struct sums {
    double n, x, y, xx, xy, yy;
};

/* Adds so many corners from one on, each a step behind the one before. */
static void add_run(struct corner from, struct corner step, int count, struct sums *sums) {
    double n = count, x = from.x, y = from.y, right = step.x, down = step.y;
    double ways = n * (n - 1) / 2, squares = ways * (2 * n - 1) / 3;
    sums->n += n, sums->x += n * x + ways * right, sums->y += n * y + ways * down;
    sums->xx += n * x * x + 2 * ways * x * right + squares * right * right;
    sums->xy += n * x * y + ways * (x * down + y * right) + squares * right * down;
    sums->yy += n * y * y + 2 * ways * y * down + squares * down * down;
}

/* Adds the corners from step `first` to step `last` that lie from one turn up to, not including, the next. */
static void add_between(const struct turn *turn, const struct turn *next, int first, int last, struct sums *sums) {
    int steps = next->step - turn->step, begin = first > turn->step ? first - turn->step : 0,
        end = last < next->step ? last + 1 - turn->step : steps;
    if (begin >= end)
        return;
    struct corner step = {(next->at.x - turn->at.x) / steps, (next->at.y - turn->at.y) / steps},
                  from = {turn->at.x + begin * step.x, turn->at.y + begin * step.y};
    add_run(from, step, end - begin, sums);
}

static struct point place(struct corner corner) {
    return point_at(corner.x, corner.y);
}

/* The line that fits best to the path from one turn to another, from the foot of one end to that of the other. */
static struct line fit_line(const struct turn *first, const struct turn *last) {
    struct sums sums = {0};
    int rim = (last->step - first->step) / 12;
    for (const struct turn *turn = first; turn < last; turn++)
        add_between(turn, turn + 1, first->step + rim, last->step - rim, &sums);
    if (rim == 0)
        add_run(last->at, (struct corner){0, 0}, 1, &sums);
    double n = sums.n, x = sums.x, y = sums.y;
    struct point middle = point_at(x / n, y / n), from = place(first->at), to = place(last->at);
    double angle = 0.5 * atan2(2 * (sums.xy - x * y / n), sums.xx - x * x / n - sums.yy + y * y / n);
    struct point along = turn_by(point_at(1, 0), angle);
    if (dot(along, difference(to, from)) < 0)
        along = scale_by(along, -1);
    from = sum(middle, scale_by(along, dot(difference(from, middle), along)));
    to = sum(middle, scale_by(along, dot(difference(to, middle), along)));
    return (struct line){from, to, length(difference(to, from)), false};
}

static int by_length(const void *one, const void *other) {
    const struct line *a = one, *b = other;
    if (a->length != b->length)
        return a->length < b->length ? 1 : -1;
    int place = by_place(a->from, b->from);
    return place ? place : by_place(a->to, b->to);
}

/* Makes room for one line more. False if there is no memory. */
static bool has_room(struct lines *lines) {
    if (lines->count < lines->room)
        return true;
    int room = lines->room > 0 ? 2 * lines->room : 1024;
    struct line *items = realloc(lines->items, (size_t)room * sizeof *items);
    if (items != NULL)
        lines->items = items, lines->room = room;
    return items != NULL;
}

/* Keeps a line. Where there are too many, the shorter half goes. False if there is no memory. */
static bool keep(struct lines *lines, struct line line) {
    if (lines->count == MOST_LINES) {
        qsort(lines->items, (size_t)lines->count, sizeof *lines->items, by_length);
        lines->count /= 2;
    }
    bool enough = has_room(lines);
    if (enough)
        lines->items[lines->count++] = line;
    return enough;
}

/* At which turn the path from one turn to another is farthest from its chord, and how far: between turns it is
 * straight, and nearer than at one of them. Twice the square of a picture's side is a number. */
static double farthest(const struct tracing *tracing, int first, int last, int *where) {
    const struct turn *turns = tracing->turns;
    struct corner from = turns[first].at, to = turns[last].at;
    int chord_x = to.x - from.x, chord_y = to.y - from.y, most = 0, at = (first + last) / 2;
    bool is_closed = chord_x == 0 && chord_y == 0;
    for (int k = first + 1; k < last; k++) {
        int x = turns[k].at.x - from.x, y = turns[k].at.y - from.y,
            away = abs(is_closed ? x * x + y * y : chord_x * y - chord_y * x);
        if (away > most)
            most = away, at = k;
    }
    *where = at;
    double chord = sqrt((double)chord_x * chord_x + (double)chord_y * chord_y);
    return is_closed ? sqrt((double)most) : (double)most / chord;
}

/* How far the path from one turn to another may leave its chord, to be straight. */
static double most_bend(const struct tracing *tracing, int first, int last) {
    struct point chord = difference(place(tracing->turns[last].at), place(tracing->turns[first].at));
    return fmax(BEND, tracing->bend * length(chord));
}

/* Cuts the path, which is closed, into straight pieces, and keeps the long ones. A comb of many teeth is cut tooth by
 * tooth, each time after a look at the whole of what is left, so the limit may be reached here, too. False if there is
 * no memory. */
static bool cut(const struct tracing *tracing) {
    const struct turn *turns = tracing->turns;
    int pending[MOST_PENDING][2], depth = 0, opposite, end = tracing->turn_count - 1;
    bool enough = true;
    farthest(tracing, 0, end, &opposite);
    pending[depth][0] = opposite, pending[depth++][1] = end;
    pending[depth][0] = 0, pending[depth++][1] = opposite;
    while (enough && depth > 0 && !limit_reached(tracing->limit)) {
        int first = pending[--depth][0], last = pending[depth][1], where;
        if (turns[last].step - turns[first].step < tracing->least)
            continue;
        if (farthest(tracing, first, last, &where) <= most_bend(tracing, first, last)) {
            struct line line = fit_line(&turns[first], &turns[last]);
            if (line.length >= tracing->least)
                enough = keep(tracing->lines, line);
        } else if (depth + 2 <= MOST_PENDING) {
            pending[depth][0] = where, pending[depth++][1] = last;
            pending[depth][0] = first, pending[depth++][1] = where;
        }
    }
    return enough;
}

/* The strip along a line that the pieces lie in which continue it: `reach` is how far from its beginning they begin at
 * most, each way. */
struct strip {
    struct point from, unit, reach;
    double whole, apart;
};

static struct strip strip_along(const struct line *line) {
    struct point along = difference(line->to, line->from);
    double whole = length(along), apart = 1.5 + 0.012 * whole;
    struct point reach = point_at(1.5 * fabs(along.x) + apart, 1.5 * fabs(along.y) + apart);
    return (struct strip){line->from, scale_by(along, 1 / whole), reach, whole, apart};
}

/* Whether the piece lies on the line, or on its way beyond its ends, no farther away than half its length. */
static bool continues(const struct strip *strip, const struct line *piece) {
    struct point before = difference(piece->from, strip->from);
    if (fabs(before.x) > strip->reach.x || fabs(before.y) > strip->reach.y)
        return false;
    struct point way = difference(piece->to, piece->from), behind = difference(piece->to, strip->from);
    double first = dot(strip->unit, before), last = dot(strip->unit, behind);
    return dot(strip->unit, way) > 0.99 * length(way) && fabs(cross(strip->unit, before)) < strip->apart &&
           fabs(cross(strip->unit, behind)) < strip->apart && last > -0.5 * strip->whole && first < 1.5 * strip->whole;
}

/* Where pieces begin: of each band of so many pixels, across and down, a bit for each piece, in words. What lies
 * outside of all is in the nearest. */
enum { BAND = 32, BITS = 64 };
struct bands {
    int count;
    uint64_t *words;
};
struct starts {
    struct bands across, down;
    int words, count; /* of each band; of pieces */
};

static int band_at(const struct bands *bands, double at) {
    return nearest_pixel(at / BAND, bands->count, 0);
}

static void add_start(const struct starts *starts, const struct bands *bands, double at, int piece) {
    bands->words[band_at(bands, at) * starts->words + piece / BITS] |= (uint64_t)1 << piece % BITS;
}

/* Where so many pieces begin in a picture. False if there is no memory. */
static bool starts_make(const struct line *pieces, int count, const struct plane *dark, struct starts *out) {
    *out = (struct starts){{dark->width / BAND + 1, NULL}, {dark->height / BAND + 1, NULL}, count / BITS + 1, count};
    size_t across = (size_t)out->across.count * (size_t)out->words, down = (size_t)out->down.count * (size_t)out->words;
    out->across.words = calloc(across + down, sizeof *out->across.words);
    if (out->across.words == NULL)
        return false;
    out->down.words = out->across.words + across;
    for (int k = 0; k < count; k++) {
        add_start(out, &out->across, pieces[k].from.x, k);
        add_start(out, &out->down, pieces[k].from.y, k);
    }
    return true;
}

/* Bands that lie side by side. */
struct range {
    int first, last;
};

static struct range range_around(const struct bands *bands, double middle, double reach) {
    return (struct range){band_at(bands, middle - reach), band_at(bands, middle + reach)};
}

/* The bits of some bands, of one word. */
static uint64_t bits_of(const struct starts *starts, const struct bands *bands, struct range range, int word) {
    const uint64_t *here = bands->words + range.first * starts->words + word;
    uint64_t all = 0;
    for (int band = range.first; band <= range.last; band++, here += starts->words)
        all |= *here;
    return all;
}

static int lowest_bit(uint64_t bits) {
    int at = 0;
    for (; (bits & 255) == 0; bits >>= 8)
        at += 8;
    for (; (bits & 1) == 0; bits >>= 1)
        at++;
    return at;
}

/* The first piece from number k on that begins within reach of a strip, or little beyond it. */
static int next_near(const struct starts *starts, const struct strip *strip, int k) {
    struct range across = range_around(&starts->across, strip->from.x, strip->reach.x),
                 down = range_around(&starts->down, strip->from.y, strip->reach.y);
    uint64_t wanted = UINT64_MAX << k % BITS;
    for (int word = k / BITS; word < starts->words; word++, wanted = UINT64_MAX) {
        uint64_t near = bits_of(starts, &starts->down, down, word) & wanted;
        near &= near != 0 ? bits_of(starts, &starts->across, across, word) : 0;
        if (near != 0)
            return word * BITS + lowest_bit(near);
    }
    return starts->count;
}

/* The line that one and the pieces behind it which continue it make up. */
static struct line joined_from(const struct lines *lines, const struct starts *starts, int at) {
    struct line joined = lines->items[at];
    struct strip strip = strip_along(&joined);
    for (int k = next_near(starts, &strip, at + 1); k < starts->count; k = next_near(starts, &strip, k + 1)) {
        const struct line *piece = &lines->items[k];
        if (!continues(&strip, piece))
            continue;
        bool is_before = dot(strip.unit, difference(piece->from, joined.from)) < 0,
             is_behind = dot(strip.unit, difference(piece->to, joined.to)) > 0;
        if (is_before)
            joined.from = piece->from;
        if (is_behind)
            joined.to = piece->to;
        if (is_before || is_behind)
            strip = strip_along(&joined);
    }
    joined.is_joined = true, joined.length = length(difference(joined.to, joined.from));
    return joined;
}

/* Adds the lines that several pieces make up. False if there is no memory. */
static bool join(struct lines *lines, const struct plane *dark, struct limit *limit) {
    if (lines->count == 0)
        return true;
    qsort(lines->items, (size_t)lines->count, sizeof *lines->items, by_length);
    int count = lines->count < MOST_LINES / 2 ? lines->count : MOST_LINES / 2;
    struct starts starts;
    bool enough = starts_make(lines->items, count, dark, &starts);
    lines->count = count;
    for (int k = 0; k < count && enough && !limit_reached(limit); k++) {
        struct line joined = joined_from(lines, &starts, k);
        limit_spend(limit, count / PIECES_AT_A_UNIT);
        if (joined.length > lines->items[k].length + 1)
            enough = keep(lines, joined);
    }
    free(starts.across.words);
    qsort(lines->items, (size_t)lines->count, sizeof *lines->items, by_length);
    return enough;
}

void lines_free(struct lines *lines) {
    free(lines->items);
    *lines = (struct lines){0};
}

/* Whether one of some pixels is dark, its left neighbour light, and its left side not seen. */
static inline bool has_left_side(const uint8_t *row, size_t pixels) {
    uint64_t found = 0;
    for (size_t k = 0; k < pixels; k += sizeof found) {
        uint64_t here, before;
        memcpy(&here, row + k, sizeof here);
        memcpy(&before, row + k - 1, sizeof before);
        found |= here & ~before & ~(here / SEEN);
    }
    return (found & UINT64_MAX / UINT8_MAX) != 0;
}

/* The first such pixel of a row, from `x` on; the width, if there is none. The plane has a frame, and is looked at many
 * pixels at a time. */
static int next_left_side(const struct plane *dark, int x, int y) {
    enum { FEW = 8, MANY = 32 };
    const uint8_t *row = pixel_of(dark, 0, y);
    while (x + MANY <= dark->width && !has_left_side(row + x, MANY))
        x += MANY;
    while (x + FEW <= dark->width && !has_left_side(row + x, FEW))
        x += FEW;
    while (x < dark->width && (row[x] != 1 || row[x - 1] != 0))
        x++;
    return x;
}

/* Makes those pixels 1 again whose left sides were seen. */
static void forget_seen(struct plane *dark) {
    int width = dark->width;
    for (int y = 0; y < dark->height; y++) {
        uint8_t *row = own_pixel_of(dark, 0, y);
        for (int x = 0; x < width; x++)
            row[x] %= SEEN;
    }
}

bool find_lines(struct plane *dark, double least, double bend, struct limit *limit, struct lines *out) {
    struct tracing tracing = {.dark = dark, .least = least, .bend = bend, .limit = limit, .lines = out};
    bool enough = true;
    out->count = 0;
    for (int y = 0; enough && y < dark->height && (y % 32 > 0 || !limit_reached(limit)); y++) {
        limit_spend(limit, dark->width / 4);
        for (int x = next_left_side(dark, 0, y); enough && x < dark->width; x = next_left_side(dark, x + 1, y))
            enough = trace(&tracing, x, y) && (tracing.count < LEAST_STEPS || cut(&tracing));
    }
    forget_seen(dark);
    free(tracing.turns);
    return enough && join(out, dark, limit);
}
