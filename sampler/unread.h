/* Symbols that were found and not read. */
#ifndef UNREAD_H
#define UNREAD_H

#include "found.h"

/* The likeliest ones, the first the likeliest, one at a place. */
struct unread {
    ecc200_sample *items;
    double *scores;
    size_t count, room;
    bool is_refused_only; /* whether those don't count that are read, but not with the margin */
};

/* Room for the scores of so many. False if there is no memory. */
bool unread_make(ecc200_sample *items, size_t room, struct unread *out);
void unread_free(struct unread *unread);

/* Whether one of this score would be kept, were no other at its place. */
bool has_room_for(const struct unread *unread, double score);

/* Keeps one, in the place of those that it lies over, unless one of these is as likely. */
void keep_unread(struct unread *unread, const ecc200_sample *symbol, double score);

/* Drops those that lie where a symbol has been read. */
void drop_read(struct unread *unread, const ecc200_sample *read, size_t count);

#endif
