#include "spectrum.h"

#include <math.h>
#include <string.h>

enum { SIDE = WINDOW_SIDE, HALF = SIDE / 2, BITS = 6, MOST_WAVES = 10, LEAST_CYCLES = 4, MOST_CYCLES = 29 };
static const double PI = 3.14159265358979323846;
static const double LEAST_SINE = 0.75, MOST_UNLIKE = 1.7; /* of two waves that make up a lattice */
static const double LEAST_STRENGTH = 4;                   /* of a wave, as a multiple of the mean one */

struct number {
    float re, im;
};

struct wave {
    double x, y; /* cycles a window */
    double strength;
};

/* What is seen of a window: the steepness, less at its rim, without its mean; and its waves. */
struct window {
    float seen[SIDE][SIDE];
    struct number waves[SIDE][SIDE];
    struct number roots[HALF];
    int turned_over[SIDE]; /* where the Fourier transform takes its numbers from */
};

/* ---- The Fourier transform */

static int turned_over(int k) {
    int out = 0;
    for (int bit = 0; bit < BITS; bit++)
        out |= (k >> bit & 1) << (BITS - 1 - bit);
    return out;
}

/* Transforms a line of numbers, each `step` after the one before. */
static void transform(struct number *line, int step, const struct window *window) {
    struct number of[SIDE];
    for (int k = 0; k < SIDE; k++)
        of[k] = line[window->turned_over[k] * step];
    for (int span = 1; span < SIDE; span *= 2)
        for (int first = 0; first < SIDE; first += 2 * span)
            for (int k = first; k < first + span; k++) {
                struct number root = window->roots[(k - first) * (HALF / span)], high = of[k + span], low = of[k];
                struct number product = {root.re * high.re - root.im * high.im, root.re * high.im + root.im * high.re};
                of[k] = (struct number){low.re + product.re, low.im + product.im};
                of[k + span] = (struct number){low.re - product.re, low.im - product.im};
            }
    for (int k = 0; k < SIDE; k++)
        line[k * step] = of[k];
}

/* What the window shows, no more than three times its mean, so that highlights don't outweigh the rest. */
static void see(const struct plane *plane, int x, int y, float seen[SIDE][SIDE]) {
    float total = 0;
    for (int row = 0; row < SIDE; row++)
        for (int column = 0; column < SIDE; column++) {
            bool is_inside = x + column < plane->width && y + row < plane->height;
            seen[row][column] = is_inside ? *pixel_of(plane, x + column, y + row) : 0;
            total += seen[row][column];
        }
    float most = 3 * total / (SIDE * SIDE);
    for (int row = 0; row < SIDE; row++)
        for (int column = 0; column < SIDE; column++)
            seen[row][column] = seen[row][column] < most ? seen[row][column] : most;
}

/* Takes the mean from what is seen, and lets it fade towards the rim. */
static void fade_out(float seen[SIDE][SIDE]) {
    float fade[SIDE], total = 0, weight = 0;
    for (int k = 0; k < SIDE; k++)
        fade[k] = (float)(0.5 - 0.5 * cos(2 * PI * (k + 0.5) / SIDE));
    for (int row = 0; row < SIDE; row++)
        for (int column = 0; column < SIDE; column++)
            total += fade[row] * fade[column] * seen[row][column], weight += fade[row] * fade[column];
    for (int row = 0; row < SIDE; row++)
        for (int column = 0; column < SIDE; column++)
            seen[row][column] = (seen[row][column] - total / weight) * fade[row] * fade[column];
}

static void find_spectrum(struct window *window) {
    for (int row = 0; row < SIDE; row++)
        for (int column = 0; column < SIDE; column++)
            window->waves[row][column] = (struct number){window->seen[row][column], 0};
    for (int k = 0; k < SIDE; k++)
        window->turned_over[k] = turned_over(k);
    for (int k = 0; k < HALF; k++)
        window->roots[k] = (struct number){(float)cos(2 * PI * k / SIDE), (float)-sin(2 * PI * k / SIDE)};
    for (int row = 0; row < SIDE; row++)
        transform(window->waves[row], 1, window);
    for (int column = 0; column < SIDE; column++)
        transform(&window->waves[0][column], SIDE, window);
}

/* ---- The strongest waves */

/* How strong the wave is that has so many cycles in the window each way. */
static double strength_at(const struct window *window, int x, int y) {
    struct number wave = window->waves[(y + SIDE) % SIDE][(x + SIDE) % SIDE];
    return sqrt((double)wave.re * wave.re + (double)wave.im * wave.im);
}

static bool is_peak(const struct window *window, int x, int y) {
    double here = strength_at(window, x, y);
    for (int down = -1; down <= 1; down++)
        for (int right = -1; right <= 1; right++)
            if ((down != 0 || right != 0) && strength_at(window, x + right, y + down) > here)
                return false;
    return true;
}

/* Where between its neighbours a peak lies. */
static double top_of(double before, double here, double after) {
    double curve = before + after - 2 * here;
    return curve < 0 ? 0.5 * (before - after) / curve : 0;
}

static void keep_wave(struct wave waves[MOST_WAVES], int *count, struct wave wave) {
    int at = *count;
    while (at > 0 && waves[at - 1].strength < wave.strength)
        at--;
    if (at == MOST_WAVES)
        return;
    *count += *count < MOST_WAVES;
    for (int k = *count - 1; k > at; k--)
        waves[k] = waves[k - 1];
    waves[at] = wave;
}

static int find_waves(const struct window *window, struct wave waves[MOST_WAVES]) {
    double total = 0;
    int count = 0, counted = 0;
    for (int y = 0; y <= MOST_CYCLES; y++)
        for (int x = -MOST_CYCLES; x <= MOST_CYCLES; x++)
            if (x * x + y * y >= LEAST_CYCLES * LEAST_CYCLES && x * x + y * y <= MOST_CYCLES * MOST_CYCLES &&
                (y > 0 || x > 0))
                total += strength_at(window, x, y), counted++;
    for (int y = 0; y <= MOST_CYCLES; y++)
        for (int x = -MOST_CYCLES; x <= MOST_CYCLES; x++) {
            double here = strength_at(window, x, y), away = x * x + y * y;
            if (away < LEAST_CYCLES * LEAST_CYCLES || away > MOST_CYCLES * MOST_CYCLES || (y == 0 && x < 0) ||
                here * counted < LEAST_STRENGTH * total || !is_peak(window, x, y))
                continue;
            double right = top_of(strength_at(window, x - 1, y), here, strength_at(window, x + 1, y));
            double down = top_of(strength_at(window, x, y - 1), here, strength_at(window, x, y + 1));
            keep_wave(waves, &count, (struct wave){x + right, y + down, here});
        }
    return count;
}

/* ---- Lattices */

/* Where the wave's crests are, as a share of its length, at the middle of the window. */
static double phase_of(const struct window *window, const struct wave *wave) {
    double re = 0, im = 0;
    for (int row = 0; row < SIDE; row++) {
        double start = -2 * PI * (wave->x * (0.5 - HALF) + wave->y * (row + 0.5 - HALF)) / SIDE,
               turn = -2 * PI * wave->x / SIDE;
        double here_re = cos(start), here_im = sin(start), turn_re = cos(turn), turn_im = sin(turn);
        for (int column = 0; column < SIDE; column++) {
            re += window->seen[row][column] * here_re, im += window->seen[row][column] * here_im;
            double next = here_re * turn_re - here_im * turn_im;
            here_im = here_re * turn_im + here_im * turn_re, here_re = next;
        }
    }
    return atan2(im, re) / (2 * PI);
}

/* The map from modules to pixels under which the edges of modules are the crests of two waves. */
static struct homography lattice_of(const struct window *window, struct wave one, struct wave other,
                                    struct point middle) {
    if (one.x * other.y - one.y * other.x < 0)
        other.x = -other.x, other.y = -other.y;
    double a = one.x / SIDE, b = one.y / SIDE, c = other.x / SIDE, d = other.y / SIDE, whole = a * d - b * c;
    double right = -phase_of(window, &one), down = -phase_of(window, &other);
    struct homography out = {{{d / whole, -b / whole, 0}, {-c / whole, a / whole, 0}, {0, 0, 1}}};
    out.m[0][2] = middle.x + out.m[0][0] * right + out.m[0][1] * down;
    out.m[1][2] = middle.y + out.m[1][0] * right + out.m[1][1] * down;
    return out;
}

static bool make_lattice(struct wave one, struct wave other) {
    double a = hypot(one.x, one.y), b = hypot(other.x, other.y);
    return fabs(one.x * other.y - one.y * other.x) > LEAST_SINE * a * b && a < MOST_UNLIKE * b && b < MOST_UNLIKE * a;
}

int find_lattices(const struct plane *plane, int x, int y, double beside, struct homography out[MOST_LATTICES]) {
    struct window window;
    struct wave waves[MOST_WAVES];
    see(plane, x, y, window.seen);
    fade_out(window.seen);
    find_spectrum(&window);
    int count = find_waves(&window, waves), made = 0;
    struct point middle = point_at(x + HALF + beside, y + HALF + beside);
    for (int sum = 1; sum < 2 * count - 2 && made < MOST_LATTICES; sum++)
        for (int k = 0; 2 * k < sum && made < MOST_LATTICES; k++)
            if (sum - k < count && make_lattice(waves[k], waves[sum - k]))
                out[made++] = lattice_of(&window, waves[k], waves[sum - k], middle);
    return made;
}
