#include "limit.h"

#include <time.h>

/* A large picture takes long to open, by so much a pixel, which the usual work makes up for; but so much for each pixel
 * is allowed at least. What is larger than a sheet is a photograph, in which a symbol may be small, among much else. */
static const int64_t USUAL_WORK = 350000000, OPENING_OF_A_PIXEL = 5, LEAST_OF_A_PIXEL = 8,
                     WORK_OF_A_PHOTOGRAPH = 430000000;
static const int64_t MOST_WORK = INT64_MAX / 2; /* as good as any */

static int64_t now(void) {
    struct timespec now;
    clock_gettime(CLOCK_MONOTONIC, &now);
    return (int64_t)now.tv_sec * 1000 + now.tv_nsec / 1000000;
}

static int64_t usual_work(int64_t pixels) {
    int64_t work = pixels > SHEET ? WORK_OF_A_PHOTOGRAPH : USUAL_WORK - OPENING_OF_A_PIXEL * pixels,
            least = LEAST_OF_A_PIXEL * pixels;
    return work > least ? work : least;
}

struct limit limit_from_now(uint32_t milliseconds, uint16_t effort, int64_t pixels) {
    bool is_timed = milliseconds != ECC200_SAMPLE_ANY_TIME;
    int64_t percent = effort != 0 ? effort : 100;
    int64_t work = is_timed || effort == ECC200_SAMPLE_ANY_EFFORT
                       ? MOST_WORK
                       : percent * (usual_work(pixels) / 100);
    return (struct limit){
        .end = is_timed ? now() + milliseconds : INT64_MAX, .allowed = work, .left = work, .part = work};
}

bool limit_reached(struct limit *limit) {
    enum ecc200_sample_end end = limit->left < 0 || limit->part < 0                 ? ECC200_SAMPLE_WORK
                                 : limit->end < INT64_MAX && now() >= limit->end ? ECC200_SAMPLE_TIME
                                                                                  : ECC200_SAMPLE_WHOLE;
    if (end != ECC200_SAMPLE_WHOLE)
        limit->reached = end;
    return end != ECC200_SAMPLE_WHOLE;
}
