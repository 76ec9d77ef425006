#include "track.h"

#include <math.h>
#include <stdlib.h>

static const double WIDEST = 0.44; /* by how much, in radians, opposite borders may differ in direction */
static const double WIDEST_FOR_LONG = 1.1; /* the same as a multiple of the border's length over its distance */
static const double LEAST_TRACK = 0.68, LEAST_TRACK_OF_RECTANGLE = 0.75, LEAST_SOLID = 0.6;
/* Modules without a turn after which a track is given up, at its start and later. */
static const double STILL_BEFORE = 12, STILL_BETWEEN = 6;

/* Of twice the number of dark modules that a track shows, the least and the most that a square's side may be. */
static const double LEAST_OF_COUNT = 0.75, MOST_OF_COUNT = 1.35;
static const double LEAST_EVEN = 0.95; /* of the score of a placement without perspective */
/* By how much twice that number may differ from a rectangle's side: so many modules, and this share of the side. */
static const double UNSURE = 2, UNSURE_SHARE = 0.2;

enum { WORK_OF_A_TRACK = 80, WORK_OF_A_STEP = 4, WORK_OF_A_MODULE = 25 };

/* ---- The line along an alternating border */

struct track {
    struct point from, along; /* a point on the middle of the track, and its direction, of length 1 */
    double score;
    int darks;                /* how many dark modules it shows */
};

/* How evenly the turns of a profile, from dark to light and back, follow one another. */
struct rhythm {
    double last, mean;   /* the place of the last turn, and the mean distance of the latest ones */
    int turns, good;
    double bad;
};

/* Where the track has ended, or hasn't begun, unless something turns before: that would be too many modules. */
static double still_from(const struct rhythm *rhythm, double module) {
    return rhythm->last + (rhythm->turns > 4 ? STILL_BETWEEN * rhythm->mean : STILL_BEFORE * module);
}

/* Takes a turn into account. False where the track has ended: nothing turns for too long. */
static bool add_turn(struct rhythm *rhythm, double place) {
    double distance = place - rhythm->last;
    rhythm->last = place;
    if (rhythm->turns++ == 0)
        return true;
    if (rhythm->turns == 2)
        rhythm->mean = distance;
    if (rhythm->turns > 4 && distance > 2.6 * rhythm->mean)
        return false;
    bool is_good = distance > 0.55 * rhythm->mean && distance < 1.7 * rhythm->mean;
    rhythm->good += is_good;
    rhythm->bad += is_good ? 0 : 1;
    rhythm->mean += 0.3 * (distance - rhythm->mean);
    return true;
}

/* A coordinate in whole numbers, of which so many bits are behind the point. */
enum { FRACTION = 32 };
static int64_t whole_of(double at) {
    return (int64_t)(at * ((int64_t)1 << FRACTION));
}

/* The pixel that such a coordinate lies in; outside, the nearest one of the frame. */
static int framed(int64_t at, int count) {
    return at < 0 ? -1 : at >> FRACTION < count ? (int)(at >> FRACTION) : count;
}

static inline int level_at(const struct plane *grey, bool is_inside, int64_t x, int64_t y) {
    return is_inside ? *pixel_of(grey, (int)(x >> FRACTION), (int)(y >> FRACTION))
                     : *pixel_of(grey, framed(x, grey->width), framed(y, grey->height));
}

/* The steps of a track. */
static double step_of(double module) {
    return module / 7 > 0.5 ? module / 7 : 0.5;
}

static double lesser(double one, double other) {
    return one < other ? one : other;
}

/* Follows the turns of brightness along the track, of at least `least` in brightness, and counts those that come
 * evenly. Where a light module is sought, brightness is taken below 0. Returns how many steps it went. */
static inline int follow_where(const struct plane *grey, bool is_inside, struct track *track, double module,
                               double longest, int least) {
    struct rhythm rhythm = {0};
    double step = step_of(module), place = 0, last = nextafter(longest, 0),
           until = lesser(still_from(&rhythm, module), last);
    int sign = 1, extreme = 255, steps = 0;
    int64_t x = whole_of(track->from.x), y = whole_of(track->from.y), right = whole_of(step * track->along.x),
            down = whole_of(step * track->along.y);
    track->darks = 0;
    for (double way = 0; way <= until; way += step, x += right, y += down, steps++) {
        int here = sign * level_at(grey, is_inside, x, y);
        if (here < extreme)
            extreme = here, place = way;
        if (here < extreme + least)
            continue;
        if (!add_turn(&rhythm, place))
            break;
        track->darks += sign > 0;
        sign = -sign, extreme = -here, place = way;
        until = lesser(rhythm.bad < rhythm.good + 4 ? still_from(&rhythm, module) : way, last);
    }
    track->score = rhythm.good - 1.3 * rhythm.bad;
    return steps;
}

static int follow(const struct plane *grey, struct track *track, double module, double longest, int least) {
    struct point end = sum(track->from, scale_by(track->along, longest + step_of(module)));
    bool is_inside = shows(grey, track->from) && shows(grey, end);
    return is_inside ? follow_where(grey, true, track, module, longest, least)
                     : follow_where(grey, false, track, module, longest, least);
}

/* The share of dark pixels beside the track, outside of the symbol. */
static double darkness_beside(const struct plane *dark, const struct track *track, struct point outwards, double module,
                              double whole) {
    int count = 0;
    enum { PLACES = 40 };
    for (int k = 0; k < PLACES; k++)
        count += dark_at(dark, sum(sum(track->from, scale_by(outwards, 1.1 * module)),
                                   scale_by(track->along, whole * (k + 0.5) / PLACES)));
    return (double)count / PLACES;
}

/* What the tracks near one end of a solid border have in common. */
struct start {
    struct point end, inwards, along; /* the end; the directions back along its own border and the other, of length 1 */
    double whole, module;             /* pixels: the other border's length; about the width of a module */
    double widest;                    /* how far a track's direction may differ from the other border's, in radians */
    int least;                        /* the least turn of brightness */
};

/* A range of tracks: where they begin, in modules from the end of the solid border, and their angles, both in steps
 * around a middle. */
struct fan {
    double shift, shift_reach, shift_step, angle, angle_reach, angle_step;
};

enum { MOST_ANGLES = 300 };

/* The angles of a fan, and the directions that they turn one to; returns their number. */
static int find_directions(const struct fan *fan, struct point along, double angles[MOST_ANGLES],
                           struct point out[MOST_ANGLES]) {
    int count = 0;
    for (double a = fan->angle - fan->angle_reach; a <= fan->angle + fan->angle_reach && count < MOST_ANGLES;
         a += fan->angle_step, count++)
        angles[count] = a, out[count] = turn_by(along, a);
    return count;
}

/* Looks at the tracks of a fan, and if one is better than the best, turns the fan's middle to it. */
static void look_around(const struct scene *scene, const struct start *start, struct fan *fan, struct track *best) {
    struct fan from = *fan;
    double angles[MOST_ANGLES], last = from.shift + from.shift_reach + 0.01;
    struct point directions[MOST_ANGLES];
    int count = find_directions(&from, start->along, angles, directions);
    for (double s = from.shift - from.shift_reach; s <= last && !limit_reached(scene->limit); s += from.shift_step)
        for (int k = 0; k < count; k++) {
            struct track track = {.from = sum(start->end, scale_by(start->inwards, s * start->module)),
                                  .along = directions[k]};
            int steps = follow(scene->grey, &track, start->module, 1.4 * start->whole, start->least);
            limit_spend(scene->limit, WORK_OF_A_TRACK + WORK_OF_A_STEP * (int64_t)steps);
            track.score -= 0.3 * fabs(s - 0.5);
            if (track.score <= best->score)
                continue;
            double beside =
                darkness_beside(scene->dark, &track, scale_by(start->inwards, -1), start->module, start->whole);
            track.score *= 1 - beside;
            if (track.score > best->score)
                *best = track, fan->shift = s, fan->angle = angles[k];
        }
}

static struct start start_at(struct point end, struct point back, struct point other, double module, int least) {
    double whole = length(other);
    double widest = fmin(WIDEST, WIDEST_FOR_LONG * length(back) / whole);
    return (struct start){
        end, scale_by(back, 1 / length(back)), scale_by(other, 1 / whole), whole, module, widest, least};
}

/* The best track of the start, among those from so many modules around `shift`. */
static struct track track_from(const struct scene *scene, const struct start *start, double shift, double reach) {
    double fine = fmax(0.4 * start->module / start->whole, 0.003);
    struct track best = {.score = 0.5};
    struct fan coarse = {shift, reach, 0.4, 0, start->widest, fine};
    look_around(scene, start, &coarse, &best);
    struct fan narrow = {coarse.shift, 0.2, 0.1, coarse.angle, fine, fine / 4};
    look_around(scene, start, &narrow, &best);
    return best;
}

/* Whether the track shows nearly two even turns for each dark module. */
static bool is_even(const struct track *track) {
    return track->darks > 4 && track->score > track->darks;
}

/* The tracks from both ends. If one is clear and the other isn't, that border was perhaps seen too short or too long.
 */
static void find_tracks(const struct scene *scene, const struct start starts[2], struct track tracks[2]) {
    for (int k = 0; k < 2; k++)
        tracks[k] = track_from(scene, &starts[k], 0.75, 1.25);
    for (int k = 0; k < 2; k++) {
        if (!is_even(&tracks[1 - k]) || is_even(&tracks[k]))
            continue;
        struct track other = track_from(scene, &starts[k], 0, 5);
        if (other.score > tracks[k].score)
            tracks[k] = other;
    }
}

/* ---- The size */

struct fit {
    int wrong, counted, solid;
};

/* Looks at a module of an alternating border between its two neighbours on it: it should be darker than these, or
 * lighter. */
static void look(const int of[3], bool is_dark, struct fit *fit) {
    int bend = of[0] + of[2] - 2 * of[1];
    fit->wrong += is_dark ? bend <= 0 : bend >= 0;
}

static void keep_last(int of[3], int level) {
    of[0] = of[1], of[1] = of[2], of[2] = level;
}

/* What the modules of the solid and of the alternating borders count for in a score. */
static const double OF_SOLID = 0.25, OF_TRACK = 0.75;

/* How well the outer border of a placement shows; 0 if it doesn't, or not better than `best`. */
static double score_of(const struct scene *scene, const struct homography *to_picture, struct extent extent,
                       double best) {
    double right = extent.wide - 0.5, below = extent.high - 0.5, sides = extent.wide + extent.high,
           least = is_square(extent) ? LEAST_TRACK : LEAST_TRACK_OF_RECTANGLE;
    struct fit fit = {.counted = extent.wide + extent.high - 4};
    int most_wrong = (int)((1 - fmax(least, (best - OF_SOLID) / OF_TRACK)) * fit.counted) + 1, of[3] = {0};
    for (int k = 0; k < extent.wide && fit.wrong <= most_wrong; k++) {
        keep_last(of, grey_at(scene->grey, map_point(to_picture, k + 0.5, 0.5)));
        if (k >= 2)
            look(of, k % 2 == 1, &fit);
    }
    for (int k = 0; k < extent.high && fit.wrong <= most_wrong; k++) {
        keep_last(of, grey_at(scene->grey, map_point(to_picture, right, k + 0.5)));
        if (k >= 2)
            look(of, k % 2 == 0, &fit);
    }
    for (int k = 0; k < extent.wide && fit.wrong <= most_wrong; k++)
        fit.solid += dark_at(scene->dark, map_point(to_picture, k + 0.5, below));
    for (int k = 0; k < extent.high && fit.wrong <= most_wrong; k++)
        fit.solid += dark_at(scene->dark, map_point(to_picture, 0.5, k + 0.5));
    double track = (double)(fit.counted - fit.wrong) / fit.counted, solid = fit.solid / sides;
    return solid < LEAST_SOLID || track < least ? 0 : OF_TRACK * track + OF_SOLID * solid;
}

static void keep_best(struct placement out[MOST_PLACEMENTS], int *count, struct placement placement) {
    int at = *count;
    while (at > 0 && out[at - 1].score < placement.score)
        at--;
    if (at == MOST_PLACEMENTS)
        return;
    *count += *count < MOST_PLACEMENTS;
    for (int k = *count - 1; k > at; k--)
        out[k] = out[k - 1];
    out[at] = placement;
}

/* Points of a symbol, and where they are in the picture, of which the fourth isn't known exactly. */
struct frame {
    struct point modules[4], pixels[4];
};

/* The frame of a shape, with the fourth point moved by so many modules each way: the best of these. */
static struct placement best_near(const struct scene *scene, const struct frame *frame, struct extent extent,
                                  double reach, double step) {
    struct placement best = {.extent = extent, .score = 0};
    double places = 2 * reach / step + 1;
    struct point along = scale_by(difference(frame->pixels[3], frame->pixels[0]), 1.0 / extent.wide);
    struct point down = scale_by(difference(frame->pixels[2], frame->pixels[3]), 1.0 / extent.high);
    for (double x = -reach; x <= reach; x += step)
        for (double y = -reach; y <= reach; y += step) {
            struct point pixels[4] = {frame->pixels[0], frame->pixels[1], frame->pixels[2]};
            pixels[3] = sum(frame->pixels[3], sum(scale_by(along, x), scale_by(down, y)));
            struct homography to_picture;
            if (!through(frame->modules, pixels, &to_picture))
                continue;
            double score = score_of(scene, &to_picture, extent, best.score);
            if (score > best.score)
                best.score = score, best.warp = flat_warp(&to_picture);
        }
    limit_spend(scene->limit, (int64_t)(places * places * WORK_OF_A_MODULE * (extent.wide + extent.high)));
    return best;
}

/* The brightness of the quiet zone beside a border less that of the border, about. */
static int contrast_of(const struct plane *grey, struct point from, struct point to, struct point inwards) {
    enum { PLACES = 24 };
    int total = 0;
    for (int k = 0; k < PLACES; k++) {
        struct point at = sum(from, scale_by(difference(to, from), (k + 0.5) / PLACES));
        total += grey_at(grey, sum(at, scale_by(inwards, -0.5))) - grey_at(grey, sum(at, scale_by(inwards, 0.5)));
    }
    return total / PLACES;
}

/* Whether tracks with so many dark modules may be the borders of a shape. A rectangle is held to both counts: a square,
 * whose sides are alike, to one of them. */
static bool may_have(struct extent shape, bool is_long, int top, int right) {
    int fewer = top < right ? top : right, more = top < right ? right : top;
    if (is_square(shape))
        return !is_long && shape.wide >= LEAST_OF_COUNT * 2 * fewer && shape.wide <= MOST_OF_COUNT * 2 * more;
    return abs(shape.wide - 2 * top) <= UNSURE + UNSURE_SHARE * shape.wide &&
           abs(shape.high - 2 * right) <= UNSURE + UNSURE_SHARE * shape.high;
}

int placements_of(const struct scene *scene, const struct layouts *shapes, const struct elbow *elbow,
                  struct placement out[MOST_PLACEMENTS]) {
    struct point along = difference(elbow->right, elbow->corner), up = difference(elbow->top, elbow->corner), meeting;
    double wide = length(along), high = length(up);
    double across = elbow->across, upwards = elbow->upwards;
    int contrast = contrast_of(scene->grey, elbow->corner, elbow->top, scale_by(along, across / wide)) +
                   contrast_of(scene->grey, elbow->corner, elbow->right, scale_by(up, upwards / high));
    int least = contrast / 2 / 7 > 4 ? contrast / 2 / 7 : 4, count = 0;
    double module = fmin(across, upwards);
    struct start starts[2] = {start_at(elbow->top, scale_by(up, -1), along, module, least),
                              start_at(elbow->right, scale_by(along, -1), up, module, least)};
    struct track tracks[2], *top = &tracks[0], *right = &tracks[1];
    find_tracks(scene, starts, tracks);
    if (top->score < 2 || right->score < 2 || !intersection(top->from, top->along, right->from, right->along, &meeting))
        return 0;
    for (int k = 0; k < shapes->count; k++) {
        struct extent shape = shapes->shapes[k];
        if (!may_have(shape, elbow->is_long, top->darks, right->darks))
            continue;
        struct frame frame = {
            {{0, 0.5}, {0, shape.high}, {shape.wide - 0.5, shape.high}, {shape.wide - 0.5, 0.5}},
            {top->from, elbow->corner, right->from, meeting}};
        struct placement placement = best_near(scene, &frame, shape, 1.0, 0.5);
        if (placement.score > 0)
            keep_best(out, &count, placement);
    }
    return count;
}

/* Whether borders of so many modules each way, about, may be those of a shape. */
static bool is_near(struct extent shape, double across, double down) {
    return fabs(shape.wide - across) <= UNSURE + UNSURE_SHARE * across &&
           fabs(shape.high - down) <= UNSURE + UNSURE_SHARE * down;
}

bool even_placement_of(const struct scene *scene, const struct layouts *shapes, const struct elbow *elbow,
                       struct placement *out) {
    struct point meeting = sum(elbow->top, difference(elbow->right, elbow->corner));
    double across = length(difference(elbow->right, elbow->corner)) / elbow->across,
           down = length(difference(elbow->top, elbow->corner)) / elbow->upwards;
    *out = (struct placement){.score = 0};
    for (int k = 0; k < shapes->count; k++) {
        struct extent shape = shapes->shapes[k];
        if (!is_near(shape, across, down))
            continue;
        struct frame frame = {{{0, 0}, {0, shape.high}, {shape.wide, shape.high}, {shape.wide, 0}},
                              {elbow->top, elbow->corner, elbow->right, meeting}};
        struct placement placement = best_near(scene, &frame, shape, 0.5, 0.25);
        if (placement.score > out->score)
            *out = placement;
    }
    return out->score >= LEAST_EVEN;
}
