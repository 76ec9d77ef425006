/* Pictures from files: PNG, JPEG, and PNM, which is PBM, PGM and PPM. */
#ifndef PICTURE_H
#define PICTURE_H

#include <stddef.h>
#include <stdint.h>

/* The bytes of a file. */
struct bytes {
    uint8_t *items;
    size_t count;
};

struct picture {
    uint8_t *luminance; /* width * height bytes, 0 black, row by row from the top */
    size_t width, height;
};

/* Each of these returns NULL, or in words what is wrong, and then `out` needs no freeing. */
const char *picture_read(const char *path,
                         struct picture *out); /* "-" is standard input; the format is seen from the first bytes */
const char *png_read(struct bytes from, struct picture *out);
const char *jpeg_read(struct bytes from, struct picture *out);
const char *pnm_read(struct bytes from, struct picture *out);

/* Room for a picture, if its size is one of those that are read; else, what is wrong with it. */
const char *picture_make(size_t width, size_t height, struct picture *out);
void picture_free(struct picture *picture);

#endif
