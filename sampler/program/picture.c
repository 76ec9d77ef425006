#include "picture.h"

#include <errno.h>
#include <stdio.h>
#include <stdlib.h>
#include <string.h>

#include "../ecc200_sample.h"

static const size_t MOST_BYTES = (size_t)1 << 31;

const char *picture_make(size_t width, size_t height, struct picture *out) {
    *out = (struct picture){NULL, width, height};
    if (width == 0 || height == 0)
        return "a picture without pixels";
    if (width > ECC200_SAMPLE_MOST_SIDE || height > ECC200_SAMPLE_MOST_SIDE) {
        static char message[64];
        snprintf(message, sizeof message, "a picture with more than %d pixels on a side", ECC200_SAMPLE_MOST_SIDE);
        return message;
    }
    out->luminance = malloc(width * height);
    return out->luminance == NULL ? "no memory" : NULL;
}

void picture_free(struct picture *picture) {
    free(picture->luminance);
    *picture = (struct picture){0};
}

/* All that is left of a file. */
static const char *bytes_read(FILE *file, struct bytes *out) {
    size_t room = 1 << 16;
    uint8_t *items = malloc(room);
    size_t count = 0, got;
    while (items != NULL && (got = fread(items + count, 1, room - count, file)) > 0) {
        count += got;
        if (count < room)
            continue;
        uint8_t *more = room < MOST_BYTES ? realloc(items, 2 * room) : NULL;
        if (more == NULL) {
            free(items);
            return room < MOST_BYTES ? "no memory" : "more than 2 GiB";
        }
        items = more, room *= 2;
    }
    if (items == NULL)
        return "no memory";
    if (ferror(file)) {
        free(items);
        return strerror(errno);
    }
    *out = (struct bytes){items, count};
    return NULL;
}

static const char *decode(struct bytes from, struct picture *out) {
    if (from.count == 0)
        return "an empty file";
    if (from.count >= 8 && memcmp(from.items, "\x89PNG\r\n\x1a\n", 8) == 0)
        return png_read(from, out);
    if (from.count >= 3 && memcmp(from.items, "\xff\xd8\xff", 3) == 0)
        return jpeg_read(from, out);
    if (from.count >= 3 && from.items[0] == 'P' && from.items[1] >= '1' && from.items[1] <= '6')
        return pnm_read(from, out);
    return "neither PNG, JPEG nor PNM";
}

const char *picture_read(const char *path, struct picture *out) {
    struct bytes bytes = {0};
    FILE *file = strcmp(path, "-") == 0 ? stdin : fopen(path, "rb");
    if (file == NULL)
        return strerror(errno);
    const char *problem = bytes_read(file, &bytes);
    if (file != stdin)
        fclose(file);
    if (problem != NULL)
        return problem;
    problem = decode(bytes, out);
    free(bytes.items);
    return problem;
}
