#include <png.h>
#include <setjmp.h>
#include <stdio.h>
#include <stdlib.h>
#include <string.h>

#include "picture.h"

enum { MESSAGE_ROOM = 96 };

/* What stays known when a fault leads back. */
struct reading {
    png_structp png;
    png_infop info;
    struct bytes from;
    size_t at;               /* how many bytes have been taken */
    struct picture picture;
    uint8_t *row;
    jmp_buf back;
    char message[MESSAGE_ROOM];
};

_Noreturn static void give_up(png_structp png, png_const_charp message) {
    struct reading *reading = png_get_error_ptr(png);
    snprintf(reading->message, sizeof reading->message, "PNG: %s", message);
    longjmp(reading->back, 1);
}

static void say_nothing(png_structp png, png_const_charp message) {
    (void)png;
    (void)message;
}

static void take(png_structp png, png_bytep to, size_t count) {
    struct reading *reading = png_get_io_ptr(png);
    if (reading->from.count - reading->at < count)
        png_error(png, "cut short");
    memcpy(to, reading->from.items + reading->at, count);
    reading->at += count;
}

/* The luminance of a pixel of one to four samples, which are grey or red, green and blue, and then perhaps opacity, on
 * white. */
static uint8_t luminance_of(const uint8_t *samples, int count) {
    unsigned grey = count < 3 ? samples[0] : (299u * samples[0] + 587u * samples[1] + 114u * samples[2] + 500) / 1000;
    unsigned opacity = count % 2 == 0 ? samples[count - 1] : 255;
    return (uint8_t)((grey * opacity + 255 * (255 - opacity) + 127) / 255);
}

/* Which pixels of the picture one pass over it brings: from the first ones on, every so many. */
struct pass {
    size_t left, across, top, down;
};

static void read_pass(struct reading *reading, struct pass pass) {
    int samples = png_get_channels(reading->png, reading->info);
    const struct picture *picture = &reading->picture;
    for (size_t y = pass.top; y < picture->height && pass.left < picture->width; y += pass.down) {
        const uint8_t *from = reading->row;
        uint8_t *to = picture->luminance + y * picture->width;
        if (samples == 1 && pass.across == 1) {
            png_read_row(reading->png, to, NULL);
            continue;
        }
        png_read_row(reading->png, reading->row, NULL);
        for (size_t x = pass.left; x < picture->width; x += pass.across, from += samples)
            to[x] = luminance_of(from, samples);
    }
}

/* Reads the rows. An interlaced picture comes in seven passes, whose rows hold their own pixels alone. */
static void read_passes(struct reading *reading) {
    if (png_get_interlace_type(reading->png, reading->info) == PNG_INTERLACE_NONE) {
        read_pass(reading, (struct pass){0, 1, 0, 1});
        return;
    }
    for (int k = 0; k < PNG_INTERLACE_ADAM7_PASSES; k++)
        read_pass(reading, (struct pass){PNG_PASS_START_COL(k), (size_t)1 << PNG_PASS_COL_SHIFT(k),
                                         PNG_PASS_START_ROW(k), (size_t)1 << PNG_PASS_ROW_SHIFT(k)});
}

/* Samples are taken as they are stored, in eight bits, whatever gamma the file tells: a threshold needs no more. */
static const char *read_all(struct reading *reading) {
    reading->png = png_create_read_struct(PNG_LIBPNG_VER_STRING, reading, give_up, say_nothing);
    reading->info = reading->png != NULL ? png_create_info_struct(reading->png) : NULL;
    if (reading->info == NULL)
        return "no memory";
    png_set_read_fn(reading->png, reading, take);
    png_read_info(reading->png, reading->info);
    const char *problem = picture_make(png_get_image_width(reading->png, reading->info),
                                       png_get_image_height(reading->png, reading->info), &reading->picture);
    if (problem != NULL)
        return problem;
    png_set_expand(reading->png);
    png_set_scale_16(reading->png);
    png_read_update_info(reading->png, reading->info);
    reading->row = malloc(png_get_rowbytes(reading->png, reading->info));
    if (reading->row == NULL)
        return "no memory";
    read_passes(reading);
    return NULL;
}

const char *png_read(struct bytes from, struct picture *out) {
    static char message[MESSAGE_ROOM];
    struct reading *reading = calloc(1, sizeof *reading);
    if (reading == NULL)
        return "no memory";
    reading->from = from;
    const char *problem;
    if (setjmp(reading->back) == 0) {
        problem = read_all(reading);
    } else {
        memcpy(message, reading->message, sizeof message);
        problem = message;
    }
    png_destroy_read_struct(&reading->png, &reading->info, NULL);
    free(reading->row);
    *out = reading->picture;
    if (problem != NULL)
        picture_free(out);
    free(reading);
    return problem;
}
