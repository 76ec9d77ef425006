/* The runs of a line of pixels, light and dark by turns. */
#ifndef RUNS_H
#define RUNS_H

/* Where each run ends; the first is light, and may be empty. */
struct runs {
    int *ends;
    int count;
};

static inline int begin_of(const struct runs *runs, int run) {
    return run > 0 ? runs->ends[run - 1] : 0;
}

static inline int length_of(const struct runs *runs, int run) {
    return runs->ends[run] - begin_of(runs, run);
}

#endif
