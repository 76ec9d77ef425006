/* What a search of a picture may take: so long, or so much work. */
#ifndef LIMIT_H
#define LIMIT_H

#include <stdbool.h>
#include <stdint.h>

#include "ecc200_sample.h"

/* Work is counted in about nanoseconds of a processor, the same for the same picture. */
struct limit {
    int64_t end;           /* milliseconds of a clock that never goes back: when to stop; INT64_MAX: never */
    int64_t allowed, left; /* how much work may be done until the first symbol; how much is left, then or to the next */
    int64_t part;          /* how much of that in what is being tried, so that something is left for the rest */
    enum ecc200_sample_end reached; /* what left something undone: ECC200_SAMPLE_WHOLE if nothing did */
};

enum { SHEET = 8800000 }; /* pixels: as many as a sheet of A4 has at 300 dots an inch, with some around it */

/* A limit of so many milliseconds from now on; if they are ECC200_SAMPLE_ANY_TIME, of work: of so many percent of what
 * is usual for so many pixels, or any if they are ECC200_SAMPLE_ANY_EFFORT. */
struct limit limit_from_now(uint32_t milliseconds, uint16_t effort, int64_t pixels);

/* Takes account of work. */
static inline void limit_spend(struct limit *limit, int64_t work) {
    limit->left -= work, limit->part -= work;
}

/* Allows half of the work that is left for what is tried next. */
static inline void limit_begin_part(struct limit *limit) {
    limit->part = limit->left / 2;
}

/* Allows so many percent of it. */
static inline void limit_begin_share(struct limit *limit, int percent) {
    limit->part = limit->left / 100 * percent;
}

/* Allows all work that is left. */
static inline void limit_end_part(struct limit *limit) {
    limit->part = limit->left;
}

/* Allows so many percent of the work from now on. */
static inline void limit_lower(struct limit *limit, int percent) {
    limit->allowed = limit->allowed / 100 * percent;
}

/* Allows more work than before, after a symbol: where one is, there may be a page of them, with words between. */
static inline void limit_renew(struct limit *limit) {
    enum { AFTER_A_SYMBOL = 6 };
    limit->left = limit->allowed < INT64_MAX / AFTER_A_SYMBOL ? AFTER_A_SYMBOL * limit->allowed : limit->allowed;
    limit_begin_part(limit);
}

/* Allows so many percent of the work anew, for another look at the picture. */
static inline void limit_begin_anew(struct limit *limit, int percent) {
    limit->left = limit->allowed / 100 * percent;
    limit_end_part(limit);
}

/* Whether the limit is reached. Who asks then leaves undone what it was about to do. */
bool limit_reached(struct limit *limit);

#endif
