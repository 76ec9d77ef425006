#include <stdlib.h>

/* The calls of this header, and no others, are seen from outside the shared library. */
#pragma GCC visibility push(default)
#include "ecc200_sample.h"
#pragma GCC visibility pop

#include "kind.h"
#include "order.h"
#include "other.h"
#include "search.h"

uint16_t ecc200_sample_abi(void) {
    return ECC200_SAMPLE_ABI;
}

ecc200_sample_options ecc200_sample_usual(void) {
    return (ecc200_sample_options){.milliseconds = ECC200_SAMPLE_ANY_TIME};
}

ecc200_sample_search ecc200_sample_usual_search(void) {
    return (ecc200_sample_search){.milliseconds = ECC200_SAMPLE_ANY_TIME};
}

static enum ecc200_sample_end end_of(const struct search *search) {
    return search->count == search->room ? ECC200_SAMPLE_ROOM : search->judge.limit->reached;
}

/* Searches a picture of a size that is sampled. `search` is empty, but for its layouts. False if there is no memory. */
static bool fill(struct search *search, const struct plane *picture, ecc200_sample_search *asked,
                 bool is_refused_only) {
    enum { OF_TEXT = 83 }; /* percent of the usual work: it shows no more for all of it */
    struct limit limit =
        limit_from_now(asked->milliseconds, asked->effort, (int64_t)picture->width * picture->height);
    struct judge *judge = &search->judge;
    ecc200_sample *trial = calloc(1, sizeof *trial);
    bool has_room = unread_make(asked->unread, asked->unread_room, &judge->unread) &&
                    known_make(picture->width, picture->height, &search->known) && trial != NULL;
    if (has_room) {
        search->found = asked->symbols, search->room = asked->room;
        judge->least_side = asked->least_side, judge->margin = asked->margin;
        judge->places = &search->places, judge->limit = &limit, judge->trial = trial;
        judge->unread.is_refused_only = is_refused_only;
        search->is_text = asked->milliseconds == ECC200_SAMPLE_ANY_TIME &&
                          asked->effort != ECC200_SAMPLE_ANY_EFFORT && is_text(picture);
        if (search->is_text)
            limit_lower(&limit, OF_TEXT);
        search_picture(search, picture, AS_IT_IS, false);
        search_anew(search, picture);
        drop_read(&judge->unread, search->found, search->count);
        judge->has_no_memory |= !put_in_order(search->found, search->count, trial);
    }
    if (has_room && !judge->has_no_memory) {
        asked->count = search->count, asked->unread_count = judge->unread.count;
        asked->ended = (uint16_t)end_of(search);
    }
    known_free(&search->known);
    unread_free(&judge->unread);
    free(trial);
    return has_room && !judge->has_no_memory;
}

static uint16_t find(const struct plane *picture, ecc200_sample_search *asked, bool is_refused_only) {
    struct layouts layouts = {0};
    struct search *search = calloc(1, sizeof *search);
    bool is_done = false;
    if (search != NULL) {
        search->judge.layouts = &layouts;
        list_shapes(&layouts);
        is_done = fill(search, picture, asked, is_refused_only);
    }
    layouts_free(&layouts);
    free(search);
    return is_done ? ECC200_SAMPLE_OK : ECC200_SAMPLE_NO_MEMORY;
}

/* A picture, if its size is one of those that are sampled; else one without pixels. */
static struct plane picture_of(const uint8_t *luminance, size_t width, size_t height, size_t stride) {
    bool is_sampled = width > 0 && height > 0 && width <= ECC200_SAMPLE_MOST_SIDE &&
                      height <= ECC200_SAMPLE_MOST_SIDE && stride >= width;
    struct plane picture = {.width = (int)width, .height = (int)height, .stride = stride, .pixels = luminance};
    return is_sampled ? picture : (struct plane){0};
}

uint16_t ecc200_sample_find(const uint8_t *luminance, size_t width, size_t height, size_t stride,
                            ecc200_sample_search *search) {
    struct plane picture = picture_of(luminance, width, height, stride);
    search->count = search->unread_count = 0;
    search->ended = ECC200_SAMPLE_WHOLE;
    return picture.pixels != NULL ? find(&picture, search, false) : ECC200_SAMPLE_PICTURE;
}

uint16_t ecc200_sample_picture(const uint8_t *luminance, size_t width, size_t height, size_t stride,
                               const ecc200_sample_options *options, ecc200_sample *out, size_t room, size_t *count) {
    ecc200_sample_options usual = ecc200_sample_usual();
    const ecc200_sample_options *asked = options != NULL ? options : &usual;
    struct plane picture = picture_of(luminance, width, height, stride);
    ecc200_sample *unread = malloc(sizeof *unread);
    ecc200_sample_search search = {.milliseconds = asked->milliseconds,
                                   .least_side = asked->least_side,
                                   .margin = asked->margin,
                                   .symbols = out,
                                   .room = room,
                                   .unread = unread,
                                   .unread_room = asked->keep_unread ? 1 : 0};
    uint16_t code = picture.pixels == NULL ? ECC200_SAMPLE_PICTURE
                    : unread == NULL       ? ECC200_SAMPLE_NO_MEMORY
                                           : find(&picture, &search, true);
    if (search.count == 0 && search.unread_count > 0 && room > 0)
        out[search.count++] = *unread;
    *count = search.count;
    free(unread);
    return code;
}

const char *ecc200_sample_other_code(const uint8_t *luminance, size_t width, size_t height, size_t stride,
                                     ecc200_sample_point corners[4]) {
    struct plane picture = picture_of(luminance, width, height, stride);
    return picture.pixels != NULL ? other_code(&picture, corners) : NULL;
}
