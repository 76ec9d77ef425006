#include "borders.h"

#include <math.h>
#include <stdlib.h>

enum { WAYS = 4 };
static const double LEAST_OF_RECTANGLE = 4.5; /* of its score: there are so many of them that chance makes some */
static const double LEAST_SOLID = 0.55, LEAST_BROKEN = 0.62, LEAST_RIGHT = 0.72; /* of the modules of a border */

/* How many modules of each row and column, before each place, are dark, and how many are dark as in a row that begins
 * with a dark module and alternates. */
struct sums {
    int16_t dark[MOST_FIELD][MOST_FIELD + 1], alternating[MOST_FIELD][MOST_FIELD + 1];
};
struct both {
    struct sums rows, columns;
};

static void sum_up(const struct field *field, struct both *both) {
    for (int k = 0; k < MOST_FIELD; k++)
        both->rows.dark[k][0] = both->rows.alternating[k][0] = both->columns.dark[k][0] =
            both->columns.alternating[k][0] = 0;
    for (int y = 0; y < field->high; y++)
        for (int x = 0; x < field->wide; x++) {
            int dark = field->dark[y * MOST_FIELD + x];
            both->rows.dark[y][x + 1] = (int16_t)(both->rows.dark[y][x] + dark);
            both->rows.alternating[y][x + 1] = (int16_t)(both->rows.alternating[y][x] + (dark == (x % 2 == 0)));
            both->columns.dark[x][y + 1] = (int16_t)(both->columns.dark[x][y] + dark);
            both->columns.alternating[x][y + 1] = (int16_t)(both->columns.alternating[x][y] + (dark == (y % 2 == 0)));
        }
}

/* Modules of a row or a column: how many are dark, how many are as they should be if they alternate and begin with a
 * dark one, and how many there are. */
struct strip {
    int dark, alternating, count;
};

static struct strip strip_of(const struct sums *sums, int at, int first, int count) {
    int alternating = sums->alternating[at][first + count] - sums->alternating[at][first];
    return (struct strip){sums->dark[at][first + count] - sums->dark[at][first],
                         first % 2 == 0 ? alternating : count - alternating, count};
}

enum { TOP, BELOW, LEFT, RIGHT, STRIPS };

/* Which strips are solid in a border, which row and which column alternates, and whether they begin with a dark module.
 * An upright symbol is solid on the left and below; each turn, clockwise, takes left to top, top to right, and so on.
 */
static const struct {
    int solid[2], row, column;
    bool is_row_dark_first, is_column_dark_first;
} BORDERS[WAYS] = {{{LEFT, BELOW}, TOP, RIGHT, true, false},
                   {{LEFT, TOP}, BELOW, RIGHT, true, true},
                   {{RIGHT, TOP}, BELOW, LEFT, false, true},
                   {{RIGHT, BELOW}, TOP, LEFT, false, false}};

/* How many modules are right in the two solid strips of a border, in the row and in the column that alternates; those
 * of the corners are counted twice. */
struct right {
    int solid, row, column;
};

static int right_if(struct strip strip, bool is_dark_first) {
    return is_dark_first ? strip.alternating : strip.count - strip.alternating;
}

static struct right right_in(const struct strip strips[STRIPS], int turns) {
    return (struct right){strips[BORDERS[turns].solid[0]].dark + strips[BORDERS[turns].solid[1]].dark,
                          right_if(strips[BORDERS[turns].row], BORDERS[turns].is_row_dark_first),
                          right_if(strips[BORDERS[turns].column], BORDERS[turns].is_column_dark_first)};
}

/* What is right in the same border if all modules are turned over. */
static struct right turned_over(struct right right, struct extent box) {
    return (struct right){box.wide + box.high - right.solid, box.wide - right.row, box.high - right.column};
}

/* A light ground, or a dark one, shows two solid strips wherever it is wide enough: the others count for more. */
static bool is_likely(struct right right, struct extent box) {
    int both = box.wide + box.high;
    return right.solid >= LEAST_SOLID * both && right.row >= LEAST_BROKEN * box.wide &&
           right.column >= LEAST_BROKEN * box.high && right.row + right.column + right.solid >= LEAST_RIGHT * 2 * both;
}

static void keep_border(struct border *out, int room, int *count, struct border border) {
    int at = *count;
    while (at > 0 && out[at - 1].score < border.score)
        at--;
    if (at == room)
        return;
    *count += *count < room;
    for (int k = *count - 1; k > at; k--)
        out[k] = out[k - 1];
    out[at] = border;
}

/* How many modules of a strip are right at least, if it alternates. */
static int least_alternating(int count) {
    return (int)ceil(LEAST_BROKEN * count);
}

/* Whether one of two strips may alternate, in some border. */
static bool may_alternate(struct strip one, struct strip other) {
    int least = one.alternating < other.alternating ? one.alternating : other.alternating,
        most = one.alternating > other.alternating ? one.alternating : other.alternating;
    return most >= least_alternating(one.count) || one.count - least >= least_alternating(one.count);
}

/* Whether one of two strips of a row and another may alternate, where they begin at each of so many places. That is the
 * same whether they begin with a dark module or a light one, and looked at many places at a time. */
static void find_alternating(const int16_t *restrict row, const int16_t *restrict other, int wide, int places,
                             uint8_t *restrict out) {
    int16_t least = (int16_t)least_alternating(wide), rest = (int16_t)(wide - least);
    for (int x = 0; x < places; x++) {
        int16_t one = (int16_t)(row[x + wide] - row[x]), two = (int16_t)(other[x + wide] - other[x]);
        out[x] = (one >= least) | (two >= least) | (one <= rest) | (two <= rest);
    }
}

/* Keeps the borders of so many columns and rows that begin at a module. */
static void look_at(const struct both *both, int x, int y, struct extent box, struct border *out, int room,
                    int *count) {
    struct strip strips[STRIPS];
    strips[TOP] = strip_of(&both->rows, y, x, box.wide);
    strips[BELOW] = strip_of(&both->rows, y + box.high - 1, x, box.wide);
    strips[LEFT] = strip_of(&both->columns, x, y, box.high);
    strips[RIGHT] = strip_of(&both->columns, x + box.wide - 1, y, box.high);
    if (!may_alternate(strips[LEFT], strips[RIGHT]))
        return;
    for (int way = 0; way < 2 * WAYS; way++) {
        int turns = way % WAYS;
        bool is_inverted = way >= WAYS;
        struct right right = right_in(strips, turns);
        right = is_inverted ? turned_over(right, box) : right;
        if (!is_likely(right, box))
            continue;
        double more = 0.75 * right.solid + 1.25 * (right.row + right.column) - (box.wide + box.high),
               score = more / sqrt(mean_side(box));
        if (!is_square(box) && score < LEAST_OF_RECTANGLE)
            continue;
        struct extent extent = turns % 2 == 0 ? box : (struct extent){box.high, box.wide};
        keep_border(out, room, count, (struct border){x, y, turns, extent, is_inverted, score});
    }
}

int find_borders(const struct field *field, const struct layouts *shapes, struct border *out, int room) {
    struct both *both = malloc(sizeof *both);
    int count = 0;
    if (both == NULL)
        return -1;
    sum_up(field, both);
    for (int k = 0; k < shapes->count; k++) {
        struct extent shape = shapes->shapes[k];
        int places = field->wide - shape.wide + 1;
        uint8_t alternates[MOST_FIELD];
        for (int y = 0; y + shape.high <= field->high && places > 0; y++) {
            find_alternating(both->rows.alternating[y], both->rows.alternating[y + shape.high - 1], shape.wide, places,
                             alternates);
            for (int x = 0; x < places; x++)
                if (alternates[x])
                    look_at(both, x, y, shape, out, room, &count);
        }
    }
    free(both);
    return count;
}
