#include <ctype.h>
#include <stdbool.h>
#include <string.h>

#include "picture.h"

static const char *const CUT_SHORT = "PNM: cut short", *const HEADER = "PNM: a faulty header",
                         *const SAMPLE = "PNM: a faulty sample";

/* Where in the file reading is. */
struct reader {
    struct bytes from;
    size_t at;
};

static int peek(const struct reader *reader) {
    return reader->at < reader->from.count ? reader->from.items[reader->at] : -1;
}

static void skip_space(struct reader *reader) {
    for (int next = peek(reader); next == '#' || (next >= 0 && isspace(next)); next = peek(reader)) {
        if (next == '#')
            while (peek(reader) >= 0 && peek(reader) != '\n')
                reader->at++;
        else
            reader->at++;
    }
}

/* The next number, of at most `most`; -1 if there is none. */
static long number(struct reader *reader, long most) {
    long value = -1;
    skip_space(reader);
    while (peek(reader) >= '0' && peek(reader) <= '9') {
        value = 10 * (value < 0 ? 0 : value) + peek(reader) - '0';
        if (value > most)
            return -1;
        reader->at++;
    }
    return value;
}

/* What the first lines say. */
struct header {
    bool is_text, is_bits;
    int samples;  /* a pixel */
    long most;    /* the sample that is white */
};

/* The next sample of a picture whose samples are written as digits; of bits, each is a digit. */
static long digits(struct reader *reader, const struct header *header) {
    if (!header->is_bits)
        return number(reader, header->most);
    skip_space(reader);
    int digit = peek(reader);
    if (digit != '0' && digit != '1')
        return -1;
    reader->at++;
    return '1' - digit;
}

/* The next sample of a picture whose samples are bytes, or two each. There are enough. */
static long byte_sample(struct reader *reader, const struct header *header) {
    long sample = reader->from.items[reader->at++];
    return header->most > 255 ? 256 * sample + reader->from.items[reader->at++] : sample;
}

static uint8_t luminance_of(const struct header *header, const long samples[3]) {
    long value = header->samples == 3 ? (299 * samples[0] + 587 * samples[1] + 114 * samples[2]) / 1000 : samples[0];
    return (uint8_t)((value * 255 + header->most / 2) / header->most);
}

static const char *read_samples(struct reader *reader, const struct header *header, const struct picture *out) {
    for (size_t k = 0; k < out->width * out->height; k++) {
        long samples[3] = {0};
        for (int sample = 0; sample < header->samples; sample++) {
            samples[sample] = header->is_text ? digits(reader, header) : byte_sample(reader, header);
            if (samples[sample] < 0 || samples[sample] > header->most)
                return peek(reader) < 0 ? CUT_SHORT : SAMPLE;
        }
        out->luminance[k] = luminance_of(header, samples);
    }
    return NULL;
}

/* Eight pixels a byte; each row begins with a byte of its own. */
static void read_bits(const struct reader *reader, const struct picture *out) {
    const uint8_t *row = reader->from.items + reader->at;
    for (size_t y = 0; y < out->height; y++, row += (out->width + 7) / 8)
        for (size_t x = 0; x < out->width; x++)
            out->luminance[y * out->width + x] = row[x / 8] >> (7 - x % 8) & 1 ? 0 : 255;
}

/* How many bytes the samples of a picture take at least. */
static size_t least_bytes(const struct header *header, size_t width, size_t height) {
    if (header->is_bits)
        return header->is_text ? width * height : (width + 7) / 8 * height;
    return width * height * (size_t)header->samples * (header->is_text || header->most <= 255 ? 1 : 2);
}

const char *pnm_read(struct bytes from, struct picture *out) {
    struct reader reader = {from, 2};
    int kind = from.items[1] - '0';
    struct header header = {
        .is_text = kind <= 3, .is_bits = kind % 3 == 1, .samples = kind % 3 == 0 ? 3 : 1, .most = 1};
    long width = number(&reader, 1000000), height = number(&reader, 1000000);
    if (!header.is_bits)
        header.most = number(&reader, 65535);
    if (width < 0 || height < 0 || header.most < 1 || peek(&reader) < 0 || !isspace(peek(&reader)))
        return HEADER;
    reader.at++;
    if (from.count - reader.at < least_bytes(&header, (size_t)width, (size_t)height))
        return CUT_SHORT;
    const char *problem = picture_make((size_t)width, (size_t)height, out);
    if (problem != NULL)
        return problem;
    if (header.is_bits && !header.is_text)
        read_bits(&reader, out);
    else if (!header.is_text && header.samples == 1 && header.most == 255)
        memcpy(out->luminance, from.items + reader.at, out->width * out->height);
    else
        problem = read_samples(&reader, &header, out);
    if (problem != NULL)
        picture_free(out);
    return problem;
}
