#include "unread.h"

#include <stdlib.h>

bool unread_make(ecc200_sample *items, size_t room, struct unread *out) {
    *out = (struct unread){.items = items, .scores = calloc(room + 1, sizeof *out->scores), .room = room};
    return out->scores != NULL;
}

void unread_free(struct unread *unread) {
    free(unread->scores);
}

bool has_room_for(const struct unread *unread, double score) {
    return unread->count < unread->room || (unread->room > 0 && unread->scores[unread->room - 1] < score);
}

static void drop(struct unread *unread, size_t at) {
    unread->count--;
    for (size_t k = at; k < unread->count; k++)
        unread->items[k] = unread->items[k + 1], unread->scores[k] = unread->scores[k + 1];
}

static bool is_at_one_place(const ecc200_sample *one, const ecc200_sample *other) {
    return shows_at(one, middle_of(other)) || shows_at(other, middle_of(one));
}

void keep_unread(struct unread *unread, const ecc200_sample *symbol, double score) {
    for (size_t k = 0; k < unread->count; k++)
        if (unread->scores[k] >= score && is_at_one_place(&unread->items[k], symbol))
            return;
    for (size_t k = unread->count; k-- > 0;)
        if (is_at_one_place(&unread->items[k], symbol))
            drop(unread, k);
    if (!has_room_for(unread, score))
        return;
    size_t at = unread->count < unread->room ? unread->count++ : unread->room - 1;
    for (; at > 0 && unread->scores[at - 1] < score; at--)
        unread->items[at] = unread->items[at - 1], unread->scores[at] = unread->scores[at - 1];
    unread->items[at] = *symbol, unread->scores[at] = score;
}

void drop_read(struct unread *unread, const ecc200_sample *read, size_t count) {
    for (size_t k = unread->count; k-- > 0;) {
        bool is_read = false;
        for (size_t j = 0; j < count && !is_read; j++)
            is_read = is_at_one_place(&unread->items[k], &read[j]);
        if (is_read)
            drop(unread, k);
    }
}
