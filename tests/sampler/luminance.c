/* Prints the luminance that dm_sample takes from a picture file, as PGM; for tests/sampler. */
#include "program/picture.h"

#include <stdio.h>

int main(int count, char **words) {
    struct picture picture;
    const char *problem = count == 2 ? picture_read(words[1], &picture) : "one file is wanted";
    if (problem != NULL) {
        fprintf(stderr, "%s\n", problem);
        return 1;
    }
    printf("P5 %zu %zu 255\n", picture.width, picture.height);
    fwrite(picture.luminance, 1, picture.width * picture.height, stdout);
    picture_free(&picture);
    return 0;
}
