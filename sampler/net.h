/* A net of modules that grows over a surface which is bent anyhow: each knot, where four modules meet, lies where those
 * around it and the edges beside it have it. */
#ifndef NET_H
#define NET_H

#include "borders.h"
#include "plane.h"
#include "sampling.h"

enum { NET_REACH = 112, NET_SIDE = 2 * NET_REACH + 1, MOST_KNOTS = NET_SIDE * NET_SIDE };
enum { MOST_SURE = 16, MOST_WAITING = 2 * MOST_KNOTS };

/* A knot that may be the next one, and which waits before it among those that are as sure, counted from 1. */
struct waiting {
    int knot, before, is_weak;
    struct point at;
};

struct net {
    const struct plane *grey;
    struct limit *limit;
    double least;                       /* brightness: how clear an edge is at least */
    struct point at[MOST_KNOTS];        /* pixels, row by row */
    uint8_t is_weak[MOST_KNOTS];        /* 0 where no knot is; 1 for one that edges show, and one more
                                           for each step from such a one */
    uint8_t sure[MOST_KNOTS];           /* how sure those are that wait */
    int knots[MOST_KNOTS], count;       /* those that are there, as they came */
    struct waiting queue[MOST_WAITING]; /* those that wait or waited */
    int waiting, last[MOST_SURE + 1];   /* how many these are, and of each sureness the last that waits */
};

/* Grows a net from the modules around the origin of a map from modules to pixels, until the limit: where it is surest,
 * as far as edges or many knots around the next one show it. False if even the first modules don't fit. */
bool grow_net(const struct plane *grey, const struct homography *to_picture, struct limit *limit, struct net *out);

/* Takes at most MOST_FIELD modules each way of a net, around its middle: what is dark, and the first knot. */
void take_field(const struct net *net, struct field *out, int *first_x, int *first_y);

/* Samples the modules of a border in a picture of which so many pixels are one of the net's, upright; and its corners,
 * clockwise from the upper left one, in those pixels. Knots that the net lacks in it are put where those
 * around them have them; false if not all can be. */
bool sample_net(struct net *net, const struct plane *picture, double scale, int first_x, int first_y,
                const struct border *border, struct brightnesses *out, struct point corners[4]);

#endif
