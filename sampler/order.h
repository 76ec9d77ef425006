/* The order in which symbols are handed on. */
#ifndef ORDER_H
#define ORDER_H

#include "found.h"

/* Puts symbols into reading order: row by row from the top, each row from the left, as the picture is seen. Where they
 * all are turned by about one angle, of at most 45 degrees but for quarter turns, it is as if that were turned back.
 * `room` is for one symbol. False if there is no memory. */
bool put_in_order(ecc200_sample *symbols, size_t count, ecc200_sample *room);

#endif
