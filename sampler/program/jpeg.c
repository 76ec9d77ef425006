#include <setjmp.h>
#include <stdio.h>
#include <stdlib.h>

#include <jpeglib.h>

#include <jerror.h>

#include "picture.h"

enum { MOST_SCANS = 100 };

/* libjpeg's manager of errors, with the place to which a fault leads back. It must come first. */
struct manager {
    struct jpeg_error_mgr base;
    jmp_buf back;
    char message[JMSG_LENGTH_MAX];
};

static void give_up(j_common_ptr jpeg) {
    struct manager *manager = (struct manager *)jpeg->err;
    jpeg->err->format_message(jpeg, manager->message);
    longjmp(manager->back, 1);
}

/* libjpeg fills in what a file lacks, and only warns; but made-up pixels are no picture. */
static void warn(j_common_ptr jpeg, int level) {
    if (level < 0 && (jpeg->err->msg_code == JWRN_JPEG_EOF || jpeg->err->msg_code == JWRN_HIT_MARKER))
        give_up(jpeg);
}

static void say_nothing(j_common_ptr jpeg) {
    (void)jpeg;
}

/* A small file may go over a large picture any number of times; what encoders write does so a dozen times at most. */
static void watch(j_common_ptr jpeg) {
    struct manager *manager = (struct manager *)jpeg->err;
    if (((j_decompress_ptr)jpeg)->input_scan_number <= MOST_SCANS)
        return;
    snprintf(manager->message, sizeof manager->message, "more than %d scans", MOST_SCANS);
    longjmp(manager->back, 1);
}

/* Four inks, as they are stored, 255 being none, as luminance. */
static void convert_inks(const uint8_t *from, size_t width, uint8_t *to) {
    for (size_t x = 0; x < width; x++, from += 4)
        to[x] = (uint8_t)((299 * from[0] + 587 * from[1] + 114 * from[2]) * from[3] / 255000);
}

/* Reads the rows into `out`. `row` has room for a row of four inks. */
static void read_rows(struct jpeg_decompress_struct *jpeg, const struct picture *out, uint8_t *row) {
    while (jpeg->output_scanline < jpeg->output_height) {
        uint8_t *to = out->luminance + (size_t)jpeg->output_scanline * out->width;
        JSAMPROW into = jpeg->output_components == 4 ? row : to;
        jpeg_read_scanlines(jpeg, &into, 1);
        if (jpeg->output_components == 4)
            convert_inks(row, out->width, to);
    }
}

/* What stays known when a fault leads back. */
struct reading {
    struct jpeg_decompress_struct jpeg;
    struct jpeg_progress_mgr progress;
    struct manager manager;
    struct picture picture;
    uint8_t *row;
};

static const char *read_all(struct reading *reading, struct bytes from) {
    struct jpeg_decompress_struct *jpeg = &reading->jpeg;
    jpeg_create_decompress(jpeg);
    jpeg->progress = &reading->progress;
    jpeg_mem_src(jpeg, from.items, from.count);
    jpeg_read_header(jpeg, TRUE);
    const char *problem = picture_make(jpeg->image_width, jpeg->image_height, &reading->picture);
    reading->row = malloc((size_t)jpeg->image_width * 4);
    if (problem == NULL && reading->row == NULL)
        problem = "no memory";
    if (problem != NULL)
        return problem;
    jpeg->out_color_space = jpeg->num_components == 4 ? JCS_CMYK : JCS_GRAYSCALE;
    jpeg_start_decompress(jpeg);
    read_rows(jpeg, &reading->picture, reading->row);
    jpeg_finish_decompress(jpeg);
    return NULL;
}

const char *jpeg_read(struct bytes from, struct picture *out) {
    static char message[JMSG_LENGTH_MAX + 8];
    struct reading *reading = calloc(1, sizeof *reading);
    if (reading == NULL)
        return "no memory";
    reading->jpeg.err = jpeg_std_error(&reading->manager.base);
    reading->manager.base.error_exit = give_up;
    reading->manager.base.emit_message = warn;
    reading->manager.base.output_message = say_nothing;
    reading->progress.progress_monitor = watch;
    const char *problem;
    if (setjmp(reading->manager.back) == 0) {
        problem = read_all(reading, from);
    } else {
        snprintf(message, sizeof message, "JPEG: %s", reading->manager.message);
        problem = message;
    }
    jpeg_destroy_decompress(&reading->jpeg);
    free(reading->row);
    *out = reading->picture;
    if (problem != NULL)
        picture_free(out);
    free(reading);
    return problem;
}
