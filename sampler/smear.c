#include "smear.h"

#include <math.h>
#include <string.h>

enum { ROUNDS = 6, SWEEPS = 4, LAST_ROUNDS = 3, LAST_SWEEPS = 8, POINTS = 2, RIM = 1 };
static const double STIFF = 3;              /* how much is held back what little is known of */
static const double APART = 0.5, FINE = 0.24; /* modules: from place to place, and from point to point of a place */
static const double LEAST_CHANGE = 1e-3;    /* of how dark a module is */
/* How far a module is pushed to light or dark in each round, as a share of how far it is from the middle. */
static const double PUSH[ROUNDS] = {0, 0, 0.1, 0.2, 0.3, 0.4};

/* ---- What is seen */

static int at_of(const struct smear *smear, int x, int y) {
    return y * smear->extent.wide + x;
}

/* The mean of some points around a place, in modules of the symbol. */
static float brightness_around(const struct plane *picture, const struct warp *warp, double x, double y) {
    double total = 0;
    for (int k = 0; k < POINTS * POINTS; k++)
        total += brightness(picture, warp_point(warp, x + FINE * (k % POINTS - 0.5), y + FINE * (k / POINTS - 0.5)));
    return (float)(total / (POINTS * POINTS));
}

static void see(const struct plane *picture, const struct warp *warp, struct smear *smear) {
    for (int place = 0; place < SMEAR_PLACES; place++) {
        double beside = 0.5 + APART * (place - 0.5) - SMEAR_RING;
        for (int y = 0; y < smear->extent.high; y++)
            for (int x = 0; x < smear->extent.wide; x++)
                smear->seen[place][at_of(smear, x, y)] = brightness_around(picture, warp, x + beside, y + beside);
    }
}

/* Takes the modules as they are guessed, and the known ones as they should be. */
static void begin(const struct layout *layout, const uint8_t *modules, struct smear *smear) {
    struct extent extent = layout->extent;
    memset(smear->is_settled, 1, sizeof smear->is_settled);
    memset(smear->dark, 0, sizeof smear->dark);
    for (int y = 0; y < extent.high; y++)
        for (int x = 0; x < extent.wide; x++) {
            int at = at_of(smear, x + SMEAR_RING, y + SMEAR_RING), k = y * extent.wide + x;
            smear->is_settled[at] = layout->colour[k] != UNKNOWN;
            smear->dark[at] = smear->is_settled[at] ? layout->colour[k] == DARK : modules[k];
        }
}

/* ---- How light runs */

/* What the terms of a module are multiplied by: how dark those around it are, and its place. */
static void find_terms_of(const struct smear *smear, int x, int y, double terms[SMEAR_TERMS]) {
    int term = 0;
    for (int down = -SMEAR_REACH; down <= SMEAR_REACH; down++)
        for (int right = -SMEAR_REACH; right <= SMEAR_REACH; right++) {
            int column = x - right, row = y - down;
            bool is_inside = column >= 0 && row >= 0 && column < smear->extent.wide && row < smear->extent.high;
            terms[term++] = is_inside ? smear->dark[at_of(smear, column, row)] : 0;
        }
    terms[term++] = 1;
    terms[term++] = (double)x / smear->extent.wide - 0.5;
    terms[term] = (double)y / smear->extent.high - 0.5;
}

/* The equations of least squares for the terms, which are the same for all places but for their values. */
struct running {
    double matrix[SMEAR_TERMS * SMEAR_TERMS], values[SMEAR_PLACES][SMEAR_TERMS];
};

static void add_module(const struct smear *smear, int x, int y, struct running *running) {
    double terms[SMEAR_TERMS];
    find_terms_of(smear, x, y, terms);
    for (int k = 0; k < SMEAR_TERMS; k++) {
        if (terms[k] == 0)
            continue;
        for (int j = k; j < SMEAR_TERMS; j++)
            running->matrix[k * SMEAR_TERMS + j] += terms[k] * terms[j];
        for (int place = 0; place < SMEAR_PLACES; place++)
            running->values[place][k] += terms[k] * smear->seen[place][at_of(smear, x, y)];
    }
}

static bool solve_for(const struct running *running, struct smear *smear) {
    double matrix[SMEAR_TERMS * SMEAR_TERMS];
    for (int place = 0; place < SMEAR_PLACES; place++) {
        for (int k = 0; k < SMEAR_TERMS; k++)
            for (int j = 0; j < SMEAR_TERMS; j++)
                matrix[k * SMEAR_TERMS + j] =
                    running->matrix[k < j ? k * SMEAR_TERMS + j : j * SMEAR_TERMS + k] + (k == j ? STIFF : 0);
        memcpy(smear->spread[place], running->values[place], sizeof smear->spread[place]);
        if (!solve(matrix, smear->spread[place], SMEAR_TERMS))
            return false;
    }
    return true;
}

/* Takes from what is seen what the modules explain. */
static void find_left(struct smear *smear) {
    double terms[SMEAR_TERMS];
    for (int y = RIM; y < smear->extent.high - RIM; y++)
        for (int x = RIM; x < smear->extent.wide - RIM; x++) {
            int at = at_of(smear, x, y);
            find_terms_of(smear, x, y, terms);
            for (int place = 0; place < SMEAR_PLACES; place++) {
                double explained = 0;
                for (int k = 0; k < SMEAR_TERMS; k++)
                    explained += terms[k] * smear->spread[place][k];
                smear->left[place][at] = smear->seen[place][at] - (float)explained;
            }
        }
}

/* Learns how light runs, from the modules as they are taken to be. */
static bool learn(struct smear *smear) {
    struct running running = {0};
    for (int y = RIM; y < smear->extent.high - RIM; y++)
        for (int x = RIM; x < smear->extent.wide - RIM; x++)
            add_module(smear, x, y, &running);
    if (!solve_for(&running, smear))
        return false;
    find_left(smear);
    return true;
}

/* ---- The modules */

/* What around a module it darkens: columns and rows, as far as they are looked at. */
static struct part reach_of(const struct smear *smear, int x, int y) {
    struct extent extent = smear->extent;
    return (struct part){x - SMEAR_REACH < RIM ? RIM : x - SMEAR_REACH,
                         x + SMEAR_REACH >= extent.wide - RIM ? extent.wide - RIM : x + SMEAR_REACH + 1,
                         y - SMEAR_REACH < RIM ? RIM : y - SMEAR_REACH,
                         y + SMEAR_REACH >= extent.high - RIM ? extent.high - RIM : y + SMEAR_REACH + 1};
}

/* The spread of a module into the row that is so far below it, from the middle of which columns are counted. */
static const double *spread_into(const struct smear *smear, int place, int down) {
    return smear->spread[place] + (down + SMEAR_REACH) * SMEAR_WINDOW + SMEAR_REACH;
}

/* By how much a module, were it dark, explains what is left; and how much it would explain at most. */
struct gain {
    double left, most;
};

static struct gain gain_of(const struct smear *smear, struct part reach, int x, int y) {
    struct gain gain = {0, 0};
    for (int place = 0; place < SMEAR_PLACES; place++)
        for (int row = reach.first_y; row < reach.last_y; row++) {
            const double *spread = spread_into(smear, place, row - y);
            const float *left = smear->left[place] + at_of(smear, 0, row);
            for (int column = reach.first_x; column < reach.last_x; column++)
                gain.left += spread[column - x] * left[column], gain.most += spread[column - x] * spread[column - x];
        }
    return gain;
}

static void darken_by(struct smear *smear, struct part reach, int x, int y, double change) {
    smear->dark[at_of(smear, x, y)] += (float)change;
    for (int place = 0; place < SMEAR_PLACES; place++)
        for (int row = reach.first_y; row < reach.last_y; row++) {
            const double *spread = spread_into(smear, place, row - y);
            float *left = smear->left[place] + at_of(smear, 0, row);
            for (int column = reach.first_x; column < reach.last_x; column++)
                left[column] -= (float)(change * spread[column - x]);
        }
}

/* Makes each module that isn't settled as dark as explains most: anything from light to dark, but for the push; or if
 * it `is_last`, light or dark. Returns whether anything has changed. */
static bool sweep(struct smear *smear, double push, bool is_last) {
    bool has_changed = false;
    for (int y = 0; y < smear->extent.high; y++)
        for (int x = 0; x < smear->extent.wide; x++) {
            if (smear->is_settled[at_of(smear, x, y)])
                continue;
            struct part reach = reach_of(smear, x, y);
            struct gain gain = gain_of(smear, reach, x, y);
            double before = smear->dark[at_of(smear, x, y)];
            if (gain.most <= 0)
                continue;
            double wanted = before + gain.left / gain.most + push * (before - 0.5);
            wanted = is_last ? wanted > 0.5 : fmin(fmax(wanted, 0), 1);
            if (fabs(wanted - before) < LEAST_CHANGE)
                continue;
            darken_by(smear, reach, x, y, wanted - before);
            has_changed = true;
        }
    return has_changed;
}

/* Makes each module light or dark, and settles none of the symbol's. */
static void round_off(struct smear *smear) {
    int wide = smear->extent.wide, high = smear->extent.high;
    for (int k = 0; k < wide * high; k++)
        smear->dark[k] = smear->dark[k] > 0.5F;
    for (int y = SMEAR_RING; y < high - SMEAR_RING; y++)
        memset(smear->is_settled + at_of(smear, SMEAR_RING, y), 0, (size_t)(wide - 2 * SMEAR_RING));
}

static void take_modules(const struct smear *smear, struct extent extent, uint8_t *modules) {
    for (int y = 0; y < extent.high; y++)
        for (int x = 0; x < extent.wide; x++)
            modules[y * extent.wide + x] = smear->dark[at_of(smear, x + SMEAR_RING, y + SMEAR_RING)] > 0.5F;
}

int64_t work_of_smear(struct extent extent) {
    enum { WORK_OF_A_MODULE = 4000 };
    return WORK_OF_A_MODULE * (int64_t)(extent.wide + 2 * SMEAR_RING) * (extent.high + 2 * SMEAR_RING);
}

bool undo_smear(const struct plane *picture, const struct layout *layout, const struct warp *warp, struct smear *room,
                uint8_t *modules) {
    room->extent = (struct extent){layout->extent.wide + 2 * SMEAR_RING, layout->extent.high + 2 * SMEAR_RING};
    see(picture, warp, room);
    begin(layout, modules, room);
    for (int round = 0; round < ROUNDS; round++) {
        if (!learn(room))
            return false;
        for (int k = 0; k < SWEEPS && sweep(room, PUSH[round], false); k++) {
        }
    }
    round_off(room);
    for (int round = 0; round < LAST_ROUNDS; round++) {
        if (!learn(room))
            return false;
        for (int k = 0; k < LAST_SWEEPS && sweep(room, 0, true); k++) {
        }
    }
    take_modules(room, layout->extent, modules);
    return true;
}
