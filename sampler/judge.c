#include "judge.h"

#include <string.h>

#include "turns.h"
#include "witness.h"

static const struct rule RULES[] = {
    {AS_SEEN, 0.00, false, 0, false},   {SLIGHTLY, 0.00, true, 0, false},  {AS_SEEN, 0.00, true, 0, false},
    {CLEARLY, 0.00, true, 0, false},    {SLIGHTLY, 0.00, false, 0, false}, {STRONGLY, 0.00, true, 0, false},
    {SLIGHTLY, 0.08, true, 0, false},   {SLIGHTLY, -0.08, true, 0, false}, {AS_SEEN, 0.10, false, 0, false},
    {AS_SEEN, -0.10, false, 0, false},  {CLEARLY, 0.15, true, 0, false},   {CLEARLY, -0.15, true, 0, false},
    {AS_SEEN, 0.20, false, 0, false},   {AS_SEEN, -0.20, false, 0, false}, {SLIGHTLY, 0.25, true, 0, false},
    {SLIGHTLY, -0.25, true, 0, false},  {AS_SEEN, 0.00, false, 3, false},  {SLIGHTLY, 0.00, false, 2, false},
    {SLIGHTLY, 0.00, false, 4, false},  {SLIGHTLY, 0.00, false, 0, true}};
/* Those by which modules are told apart where some are doubtful. */
static const struct rule DOUBT_RULES[] = {{AS_SEEN, 0.00, false, 0, false},
                                          {SLIGHTLY, 0.00, true, 0, false},
                                          {AS_SEEN, 0.00, false, 3, false},
                                          {SLIGHTLY, 0.00, false, 0, true}};
/* Those for modules as bright as their darkest points, which gleams leave darker than light ones if only in part. */
static const struct rule GLEAM_RULES[] = {{SLIGHTLY, 0.15, false, 0, false}, {AS_SEEN, 0.30, false, 0, false},
                                          {SLIGHTLY, 0.00, false, 2, false}, {SLIGHTLY, 0.00, false, 0, true},
                                          {CLEARLY, 0.00, true, 0, false},   {SLIGHTLY, 0.00, true, 0, false}};
/* That of the first guess where light has run from module to module. */
static const struct rule SMEAR_RULE = {SLIGHTLY, 0.00, true, 0, false};
enum {
    RULE_COUNT = sizeof RULES / sizeof *RULES,
    DOUBT_RULE_COUNT = sizeof DOUBT_RULES / sizeof *DOUBT_RULES,
    GLEAM_RULE_COUNT = sizeof GLEAM_RULES / sizeof *GLEAM_RULES
};
enum { CHECKS_OF_A_CORRECTION = 2 };
/* Checks that tell a symbol with doubtful modules from chance, which meets each of them one time in 256. */
enum { LEAST_EVIDENCE = 3 };
static const double LEAST_SHARE = 0.4, LEAST_SHARE_OF_CLEAR = 0.25, LEAST_BENT = 0.6;
static const double LEAST_FIRST = 0.3, LEAST_FIRST_OF_CLEAR = 0.2; /* before a fit to the edges */
static const double LEAST_NEAR = 0.6; /* of the edges of a border that is bent: by chance, a third */

/* What is spent on a module that is sampled, told apart, read, or looked at for damage. */
enum { WORK_OF_SAMPLING = 160, WORK_OF_A_RULE = 60, WORK_OF_READING = 20, WORK_OF_LOOKING = 150 };

/* ---- One candidate */

/* How many wrong border modules are taken at most, where each block leaves a correction unused: as many as a torn
 * corner may take. */
static int widest_limit(struct extent extent) {
    return 5 * (extent.wide + extent.high) / 8;
}

static int usual_limit(struct extent extent) {
    return ecc200_usual_limit((uint16_t)extent.high, (uint16_t)extent.wide);
}

static int usual_limit_of(const ecc200_sample *trial) {
    return usual_limit((struct extent){trial->columns, trial->rows});
}

/* Reads the candidate. `doubtful`: which of its modules are, or NULL if none is. */
static uint16_t read(ecc200_sample *trial, const uint8_t *doubtful, int limit) {
    size_t count = (size_t)trial->rows * (size_t)trial->columns;
    const ecc200_scan scan = {trial->rows, trial->columns, ECC200_GIVEN_LIMIT, (uint16_t)limit, ECC200_WIDE};
    uint16_t code = ecc200_read(trial->modules, count, doubtful, doubtful != NULL ? count : 0, &scan, &trial->reading);
    bool is_usual = code == ECC200_OK && trial->reading.border_faults <= usual_limit_of(trial);
    trial->border_limit = (uint16_t)(is_usual ? usual_limit_of(trial) : limit);
    return code;
}

/* Codewords corrected, and then border modules: the fewer the better. */
static int cost_of(const ecc200_reading *reading) {
    int corrected = 0;
    for (int block = 0; block < reading->block_count; block++)
        corrected += reading->corrected[block];
    return 1000 * corrected + reading->border_faults;
}

/* Whether a reading is to be trusted. Beyond the usual border limit it is only if each block leaves one correction
 * unused at least. */
static bool leaves_margin(const ecc200_sample *trial, int margin) {
    const ecc200_reading *reading = &trial->reading;
    margin = margin > 0 || reading->border_faults <= usual_limit_of(trial) ? margin : 1;
    for (int block = 0; block < reading->block_count; block++)
        if (reading->left[block] < CHECKS_OF_A_CORRECTION * margin)
            return false;
    return true;
}

/* The corners of the upright symbol, which a mirror that leaves the solid border where it is takes across. */
static void set_corners(ecc200_sample *sample, const struct warp *warp, double scale, struct extent extent) {
    for (int k = 0; k < 4; k++) {
        struct point corner = corner_of(extent, sample->mirrored && k % 2 == 0 ? 2 - k : k),
                     at = scale_by(warp_point(warp, corner.x, corner.y), scale);
        sample->corners[k] = (ecc200_sample_point){at.x, at.y};
    }
}

/* ---- What is spent */

static void spend(struct judge *judge, const struct layout *layout, int64_t work_of_a_module) {
    limit_spend(judge->limit, work_of_a_module * layout->extent.wide * layout->extent.high);
}

/* On a fit to edges, so many times. */
static void spend_on_edges(struct judge *judge, const struct layout *layout, int rounds) {
    limit_spend(judge->limit, rounds * work_of_fitting(layout));
}

/* ---- The candidates of one sampling */

struct trials {
    struct judge *judge;
    const struct layout *layout;
    const struct warp *warp;
    ecc200_sample *best;
    int best_cost;          /* -1: none was read yet */
    double score;           /* of the placement */
    bool has_border;        /* whether a candidate had a symbol's border */
};

/* Keeps the candidate, unless one with no more corrections is kept. */
static void keep(struct trials *trials) {
    ecc200_sample *trial = trials->judge->trial;
    int cost = cost_of(&trial->reading);
    if (trials->best_cost >= 0 && trials->best_cost <= cost)
        return;
    trials->best_cost = cost;
    set_corners(trial, trials->warp, trials->judge->scale, trials->layout->extent);
    *trials->best = *trial;
}

/* Hands on a candidate that isn't read. */
static void hand_on(struct trials *trials, enum ecc200_sample_unread why) {
    ecc200_sample *trial = trials->judge->trial;
    set_corners(trial, trials->warp, trials->judge->scale, trials->layout->extent);
    trial->unread = (uint16_t)why;
    keep_unread(&trials->judge->unread, trial, trials->score);
    trial->unread = ECC200_SAMPLE_READ;
}

static bool wants_unread(const struct trials *trials) {
    return trials->best_cost < 0 && has_room_for(&trials->judge->unread, trials->score);
}

/* Hands on a candidate that is read, but not with the margin. */
static void hand_on_untrusted(struct trials *trials) {
    if (wants_unread(trials) && !trials->judge->unread.is_refused_only)
        hand_on(trials, ECC200_SAMPLE_MARGIN);
}

/* A grid whose border the reader doesn't take is no symbol, but whatever else has a solid elbow. */
static void hand_on_refused(struct trials *trials) {
    ecc200_sample *trial = trials->judge->trial;
    if (wants_unread(trials) && read(trial, NULL, usual_limit_of(trial)) != ECC200_BORDER)
        hand_on(trials, ECC200_SAMPLE_REFUSED);
}

static void keep_if_trusted(struct trials *trials) {
    if (leaves_margin(trials->judge->trial, trials->judge->margin))
        keep(trials);
    else
        hand_on_untrusted(trials);
}

/* Makes what is seen the candidate, as it is or as a mirror shows it. */
static void take_seen(struct trials *trials, bool is_mirrored) {
    struct judge *judge = trials->judge;
    struct extent extent = trials->layout->extent;
    ecc200_sample *trial = judge->trial;
    trial->rows = (uint16_t)(is_mirrored ? extent.wide : extent.high);
    trial->columns = (uint16_t)(is_mirrored ? extent.high : extent.wide);
    trial->inverted = judge->is_inverted, trial->mirrored = is_mirrored;
    if (is_mirrored)
        mirror_modules(judge->seen, extent, trial->modules);
    else
        memcpy(trial->modules, judge->seen, (size_t)extent.wide * (size_t)extent.high);
}

/* Tries these rules. False if the modules can't be told apart by the border. */
static bool try_these(struct trials *trials, const struct brightnesses *brightnesses, const struct rule *rules,
                      int count) {
    struct judge *judge = trials->judge;
    ecc200_sample *trial = judge->trial;
    const struct layout *layout = trials->layout;
    int limit = widest_limit(layout->extent);
    begin_telling(brightnesses, layout, layout->colour, &judge->telling);
    for (int k = 0; k < count && trials->best_cost != 0; k++) {
        spend(judge, layout, WORK_OF_A_RULE + WORK_OF_READING);
        enum told told = tell_apart(&judge->telling, rules[k], limit, judge->seen);
        if (told == NO_CONTRAST)
            return k > 0;
        if (told == NO_BORDER)
            continue;
        take_seen(trials, layout->is_mirrored);
        if (read(trial, NULL, limit) == ECC200_OK) {
            keep_if_trusted(trials);
            continue;
        }
        trials->has_border = true;
        if (rules[k].around == 0)
            hand_on_refused(trials);
        if (!is_square(layout->extent))
            continue;
        take_seen(trials, true);
        if (read(trial, NULL, limit) == ECC200_OK)
            keep_if_trusted(trials);
    }
    return true;
}

static bool try_rules(struct trials *trials, const struct brightnesses *brightnesses) {
    return try_these(trials, brightnesses, RULES, RULE_COUNT);
}

/* ---- Known damage */

/* Whether two checks of each block are unused at least. */
static bool leaves_checks(const ecc200_sample *trial, int margin) {
    margin = margin > 1 ? margin : 1;
    for (int block = 0; block < trial->reading.block_count; block++)
        if (trial->reading.left[block] < CHECKS_OF_A_CORRECTION * margin)
            return false;
    return true;
}

/* Whether a reading with doubtful modules is to be trusted: what erased codewords haven't taken of the checks is
 * enough. Of the two that a correction takes one says where the wrong codeword is, and so as little as an erasure, and
 * the other one is as good as unused. A border without a fault tells as much as a check does. */
static bool leaves_evidence(const ecc200_sample *trial, int margin) {
    int checks = trial->reading.border_faults == 0;
    for (int block = 0; block < trial->reading.block_count; block++)
        checks += trial->reading.left[block] + trial->reading.corrected[block];
    return checks >= LEAST_EVIDENCE && leaves_checks(trial, margin);
}

static bool says_the_same(const ecc200_reading *one, const ecc200_reading *other) {
    return one->item_count == other->item_count && one->mark_count == other->mark_count &&
           memcmp(&one->head, &other->head, sizeof one->head) == 0 &&
           memcmp(one->items, other->items, one->item_count * sizeof *one->items) == 0 &&
           memcmp(one->marks, other->marks, one->mark_count * sizeof *one->marks) == 0;
}

/* Lets the reader judge what is seen, as it is or in a mirror, with its doubtful modules. False if this says something
 * else than a candidate before it. */
static bool try_doubtful(struct trials *trials, bool is_mirrored) {
    struct judge *judge = trials->judge;
    ecc200_sample *trial = judge->trial;
    struct extent extent = trials->layout->extent;
    size_t count = (size_t)extent.wide * (size_t)extent.high;
    take_seen(trials, is_mirrored);
    if (is_mirrored)
        mirror_modules(judge->doubtful, extent, trial->doubtful);
    else
        memcpy(trial->doubtful, judge->doubtful, count);
    if (read(trial, trial->doubtful, usual_limit_of(trial)) != ECC200_OK)
        return true;
    if (!leaves_evidence(trial, judge->margin))
        hand_on_untrusted(trials);
    else if (trials->best_cost >= 0 && !says_the_same(&trials->best->reading, &trial->reading))
        return false;
    else
        keep(trials);
    return true;
}

/* Tries a lie once more, with doubtful modules, by all rules for these. False if they don't agree. */
static bool try_doubt(struct trials *trials, const struct brightnesses *brightnesses) {
    struct judge *judge = trials->judge;
    const struct layout *layout = trials->layout;
    uint8_t colour[MOST_MODULES];
    bool is_one = true;
    for (int k = 0; k < layout->extent.wide * layout->extent.high; k++)
        colour[k] = judge->doubtful[k] ? UNKNOWN : layout->colour[k];
    begin_telling(brightnesses, layout, colour, &judge->telling);
    for (int k = 0; k < DOUBT_RULE_COUNT && is_one; k++) {
        spend(judge, layout, WORK_OF_A_RULE + 2 * WORK_OF_READING);
        if (tell_apart(&judge->telling, DOUBT_RULES[k], usual_limit(layout->extent), judge->seen) != TOLD_APART)
            continue;
        is_one = try_doubtful(trials, layout->is_mirrored);
        if (is_one && is_square(layout->extent))
            is_one = try_doubtful(trials, true);
    }
    return is_one;
}

/* ---- The samplings of a placement */

/* Fits each region by its own border. */
static void try_regions(struct trials *trials, struct lie *lie, struct brightnesses *brightnesses) {
    const struct layout *layout = trials->layout;
    struct extent region = layout->region;
    int across = layout->extent.wide / region.wide, down = layout->extent.high / region.high;
    if (across * down == 1 || trials->best_cost >= 0 || limit_reached(trials->judge->limit))
        return;
    lie->region = region;
    spend_on_edges(trials->judge, layout, 2);
    spend(trials->judge, layout, WORK_OF_SAMPLING);
    for (int k = 0; k < across * down; k++) {
        int x = k % across * region.wide, y = k / across * region.high;
        struct part part = {x, x + region.wide, y, y + region.high};
        lie->warps[k] = *trials->warp;
        refine(trials->judge->smooth, layout, part, 0.3, 2, 0, &lie->warps[k]);
    }
    sample_modules(trials->judge->picture, layout, lie, brightnesses);
    try_rules(trials, brightnesses);
}

/* Bends the whole by its border, and then by all edges, whatever modules they are between. */
static void try_bent(struct trials *trials, struct lie *lie, struct brightnesses *brightnesses) {
    struct judge *judge = trials->judge;
    struct extent extent = trials->layout->extent;
    struct warp warp = bendable_warp(&trials->warp->to_picture, extent);
    if (trials->score < LEAST_BENT || trials->best_cost >= 0 || limit_reached(judge->limit))
        return;
    spend_on_edges(judge, trials->layout, 4);
    if (bend(judge->smooth, trials->layout, 4, &warp) < LEAST_NEAR)
        return;
    for (int round = 0; round < 2 && trials->best_cost < 0 && !limit_reached(judge->limit); round++) {
        if (round > 0) {
            lay_out_places(judge->places, (struct part){0, extent.wide, 0, extent.high});
            spend_on_edges(judge, judge->places, 3);
            bend(judge->smooth, judge->places, 3, &warp);
        }
        lie->region = extent, lie->warps[0] = warp;
        spend(judge, trials->layout, WORK_OF_SAMPLING);
        sample_modules(judge->picture, trials->layout, lie, brightnesses);
        try_rules(trials, brightnesses);
    }
}

/* Lets the reader judge what is seen where a smear was undone, as it is or in a mirror. */
static void try_undone(struct trials *trials, bool is_mirrored) {
    ecc200_sample *trial = trials->judge->trial;
    take_seen(trials, is_mirrored);
    if (read(trial, NULL, usual_limit_of(trial)) != ECC200_OK)
        return;
    if (leaves_checks(trial, trials->judge->margin))
        keep(trials);
    else
        hand_on_untrusted(trials);
}

/* A warp to the picture as one to what that was made of. */
static struct warp to_original(const struct judge *judge, const struct warp *warp) {
    struct warp out = *warp;
    for (int k = 0; k < 2 * 3; k++)
        out.to_picture.m[k / 3][k % 3] *= judge->scale / judge->scale_of_original;
    return out;
}

/* Looks at what the picture shows to be damaged, and at what the one that it was made of does, whose damage may look
 * sound in it. */
static void look_for_damage(struct judge *judge, const struct layout *layout, const struct warp *warp) {
    look_at_modules(judge->picture, false, layout, warp, &judge->looks[0]);
    if (judge->original == NULL)
        return;
    struct warp of_original = to_original(judge, warp);
    look_at_modules(judge->original, judge->is_inverted, layout, &of_original, &judge->looks[1]);
}

/* Returns how many modules are doubtful by what was looked at. */
static int find_damage(struct judge *judge, const struct layout *layout, int beside) {
    int count = 0;
    memset(judge->doubtful, 0, sizeof judge->doubtful);
    for (int k = 0; k <= (judge->original != NULL); k++) {
        spend(judge, layout, WORK_OF_LOOKING);
        count = find_doubt(&judge->looks[k], layout, beside, judge->doubtful);
    }
    return count;
}

/* Tries the placement as it is once more, without what the picture shows to be damaged: first with what its edges cut,
 * and then without that, too. */
static void try_known_damage(struct trials *trials, const struct brightnesses *brightnesses) {
    struct judge *judge = trials->judge;
    look_for_damage(judge, trials->layout, trials->warp);
    for (int beside = 0; beside <= 1 && trials->best_cost < 0 && !limit_reached(judge->limit); beside++) {
        if (find_damage(judge, trials->layout, beside) == 0)
            return;
        if (!try_doubt(trials, brightnesses))
            trials->best_cost = -1;
    }
    memset(judge->trial->doubtful, 0, sizeof judge->trial->doubtful);
}

/* Whether placements that aren't read are tried once more, as smeared: those of the picture itself at its full size. */
static bool is_for_later(const struct judge *judge) {
    return judge->scale == 1 && judge->original == NULL;
}

static void keep_for_later(struct judge *judge, const struct smeared *smeared) {
    if (is_for_later(judge))
        keep_smeared(&judge->smeared_places, smeared);
}

bool judge_placement(struct judge *judge, const struct placement *placement, ecc200_sample *out) {
    const struct layout *layout = layout_of(judge->layouts, placement->extent);
    if (layout == NULL)
        judge->has_no_memory = true;
    if (layout == NULL || shorter_side(placement->extent) < judge->least_side)
        return false;
    struct warp warp = placement->warp;
    struct part whole = {0, layout->extent.wide, 0, layout->extent.high};
    double first = is_for_later(judge) ? 0 : placement->shows_border ? LEAST_FIRST_OF_CLEAR : LEAST_FIRST;
    spend_on_edges(judge, layout, 4);
    double share = refine(judge->smooth, layout, whole, 0.01, 4, first, &warp);
    struct smeared smeared = {.at = tried_at(&warp, layout->extent, judge->scale, judge->is_inverted), .warp = warp};
    smeared.score = share * length(difference(smeared.at.corners[2], smeared.at.corners[0]));
    if (share < (placement->shows_border ? LEAST_SHARE_OF_CLEAR : LEAST_SHARE)) {
        keep_for_later(judge, &smeared);
        return false;
    }
    if (was_tried(&judge->tried, &smeared.at))
        return false;
    struct trials trials = {judge, layout, &warp, out, -1, share, false};
    struct brightnesses brightnesses, otherwise;
    struct lie lie = {.region = layout->extent, .warps = {warp}};
    spend(judge, layout, WORK_OF_SAMPLING);
    sample_modules(judge->picture, layout, &lie, &brightnesses);
    if (!try_rules(&trials, &brightnesses))
        return false;
    try_regions(&trials, &lie, &otherwise);
    try_bent(&trials, &lie, &otherwise);
    if (trials.best_cost < 0 && !judge->is_thick)
        try_known_damage(&trials, &brightnesses);
    if (trials.best_cost < 0)
        keep_for_later(judge, &smeared);
    if (trials.best_cost < 0 && trials.has_border)
        keep_smeared(&judge->gleaming_places, &smeared);
    return trials.best_cost >= 0;
}

/* Tries modules by their darkest points in a picture. */
static void try_gleaming(struct trials *trials, const struct plane *picture, const struct warp *warp) {
    const struct layout *layout = trials->layout;
    struct lie lie = {.region = layout->extent, .warps = {*warp}};
    struct brightnesses brightnesses;
    spend(trials->judge, layout, WORK_OF_SAMPLING);
    sample_modules(picture, layout, &lie, &brightnesses);
    take_darkest(&brightnesses);
    try_these(trials, &brightnesses, GLEAM_RULES, GLEAM_RULE_COUNT);
}

bool judge_gleaming(struct judge *judge, const struct smeared *gleaming, ecc200_sample *out) {
    const struct layout *layout = layout_of(judge->layouts, gleaming->at.extent);
    struct trials trials = {judge, layout, &gleaming->warp, out, -1, gleaming->score, false};
    try_gleaming(&trials, judge->picture, &gleaming->warp);
    if (trials.best_cost < 0 && judge->original != NULL && !judge->is_inverted) {
        struct warp of_original = to_original(judge, &gleaming->warp);
        try_gleaming(&trials, judge->original, &of_original);
    }
    return trials.best_cost >= 0;
}

bool judge_modules(struct judge *judge, const struct brightnesses *brightnesses, const struct point corners[4],
                   ecc200_sample *out) {
    struct extent extent = brightnesses->extent;
    const struct layout *layout = layout_of(judge->layouts, extent);
    struct point modules[4];
    struct warp warp = {.is_bent = false};
    for (int k = 0; k < 4; k++)
        modules[k] = corner_of(extent, k);
    if (layout == NULL)
        judge->has_no_memory = true;
    if (layout == NULL || shorter_side(extent) < judge->least_side || !through(modules, corners, &warp.to_picture))
        return false;
    struct trials trials = {judge, layout, &warp, out, -1, 0, false};
    begin_telling(brightnesses, layout, layout->colour, &judge->telling);
    for (int k = 0; k < RULE_COUNT && trials.best_cost != 0 && !limit_reached(judge->limit); k++) {
        spend(judge, layout, WORK_OF_A_RULE + 2 * WORK_OF_READING);
        if (tell_apart(&judge->telling, RULES[k], usual_limit(extent), judge->seen) != TOLD_APART)
            continue;
        try_undone(&trials, layout->is_mirrored);
        if (is_square(extent))
            try_undone(&trials, true);
    }
    return trials.best_cost >= 0;
}

void size_up_smeared(struct judge *judge) {
    struct smeared_places *places = &judge->smeared_places;
    for (int k = 0; k < places->count && !limit_reached(judge->limit); k++) {
        if (places->items[k].at.is_inverted != judge->is_inverted || !is_square(places->items[k].at.extent))
            continue;
        limit_spend(judge->limit, WORK_OF_TURNS);
        size_up(judge->smooth, judge->layouts, &places->items[k]);
    }
}

bool judge_smeared(struct judge *judge, const struct smeared *smeared, ecc200_sample *out) {
    const struct layout *layout = layout_of(judge->layouts, smeared->at.extent);
    if (layout == NULL)
        judge->has_no_memory = true;
    if (layout == NULL || shorter_side(smeared->at.extent) < judge->least_side)
        return false;
    struct trials trials = {judge, layout, &smeared->warp, out, -1, smeared->score, false};
    struct lie lie = {.region = smeared->at.extent, .warps = {smeared->warp}};
    struct brightnesses brightnesses;
    spend(judge, layout, WORK_OF_SAMPLING + WORK_OF_A_RULE + 2 * WORK_OF_READING);
    limit_spend(judge->limit, work_of_smear(smeared->at.extent));
    sample_modules(judge->picture, layout, &lie, &brightnesses);
    begin_telling(&brightnesses, layout, layout->colour, &judge->telling);
    if (tell_apart(&judge->telling, SMEAR_RULE, layout->border_count, judge->seen) != TOLD_APART ||
        !undo_smear(judge->picture, layout, &smeared->warp, &judge->smear, judge->seen))
        return false;
    try_undone(&trials, layout->is_mirrored);
    if (is_square(smeared->at.extent))
        try_undone(&trials, true);
    return trials.best_cost >= 0;
}
