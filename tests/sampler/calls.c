/* Calls the sampler's library with wrong arguments and right ones, on a picture from standard input. */
#include <ecc200_sample.h>
#include <stdio.h>
#include <string.h>
static ecc200_sample symbols[2], unread[1];

/* Searches the picture for `room` symbols; returns how it ended, or 99 if it is as it shouldn't be. */
static int search_for(const uint8_t *pixels, size_t width, size_t height, size_t room, ecc200_sample_search *search) {
    search->symbols = symbols, search->room = room, search->unread = unread, search->unread_room = 1;
    uint16_t code = ecc200_sample_find(pixels, width, height, 400, search);
    return code == ECC200_SAMPLE_OK && search->count <= room ? search->ended : 99;
}

/* Returns a number from a function in which something doesn't hold. */
#define EXPECT(number, holds)                                                                                          \
    if (!(holds))                                                                                                      \
    return number

/* Tells the number of the first search that goes wrong; 0 if none does. */
static int try_searches(const uint8_t *pixels, size_t width, size_t height) {
    ecc200_sample_search search = ecc200_sample_usual_search();
    EXPECT(1, search_for(pixels, width, height, 2, &search) == ECC200_SAMPLE_WHOLE && search.count == 1 &&
                  search.unread_count == 0 && symbols[0].unread == ECC200_SAMPLE_READ &&
                  symbols[0].border_limit == ecc200_usual_limit(14, 14));
    EXPECT(2, search_for(pixels, width, height, 1, &search) == ECC200_SAMPLE_ROOM && search.count == 1);
    EXPECT(3, search_for(pixels, width, height, 0, &search) == ECC200_SAMPLE_ROOM && search.count == 0);
    search.margin = 9;
    EXPECT(4, search_for(pixels, width, height, 2, &search) == ECC200_SAMPLE_WHOLE && search.count == 0 &&
                  search.unread_count == 1 && unread[0].unread == ECC200_SAMPLE_MARGIN && unread[0].rows == 14);
    search.effort = 1;
    EXPECT(7, search_for(pixels, width, height, 2, &search) == ECC200_SAMPLE_WORK && search.count == 0);
    search.effort = ECC200_SAMPLE_ANY_EFFORT;
    EXPECT(8, search_for(pixels, width, height, 2, &search) == ECC200_SAMPLE_WHOLE && search.count == 0);
    search.milliseconds = 0;
    EXPECT(5, search_for(pixels, width, height, 2, &search) == ECC200_SAMPLE_TIME && search.count == 0 &&
                  search.unread_count == 0);
    EXPECT(6, search_for(pixels, 0, height, 2, &search) == 99 && search.ended == ECC200_SAMPLE_WHOLE);
    return 0;
}

/* Tells the number of the first measure that goes wrong; 0 if none does. */
static int try_measures(const uint8_t *pixels, size_t width, size_t height) {
    static ecc200_sample_quality quality;
    static ecc200_sample other;
    EXPECT(1, ecc200_sample_measure(pixels, width, height, 400, &symbols[0], &quality) == ECC200_SAMPLE_OK &&
                  quality.contrast_grade == 4 && quality.blocks == 1 && !strcmp(quality.weakest, "nothing is weak"));
    EXPECT(2, ecc200_sample_measure(pixels, width, height, width - 1, &symbols[0], &quality) == ECC200_SAMPLE_PICTURE &&
                  ecc200_sample_measure(pixels, 0, height, 400, &symbols[0], &quality) == ECC200_SAMPLE_PICTURE &&
                  !(quality.contrast > 0) && quality.weakest[0] == 0);
    EXPECT(3, ecc200_sample_measure(pixels, width, height, 400, &other, &quality) == ECC200_SAMPLE_SYMBOL);
    other.rows = other.columns = 14; /* with all corners at one place */
    EXPECT(4, ecc200_sample_measure(pixels, width, height, 400, &other, &quality) == ECC200_SAMPLE_SYMBOL);
    return 0;
}

int main(int count, char **words) {
    static uint8_t pixels[400 * 400];
    size_t width, height, found = 9;
    EXPECT(9, count > 1 && words[1][0] == 'x' && scanf("P5\n# made for a test\n%zu %zu\n255", &width, &height) == 2 &&
                  getchar() == '\n');
    for (size_t y = 0; y < height; y++)
        EXPECT(8, fread(pixels + y * 400, 1, width, stdin) == width);
    ecc200_sample_options options = ecc200_sample_usual();
    EXPECT(7, ecc200_sample_abi() == ECC200_SAMPLE_ABI && options.milliseconds == ECC200_SAMPLE_ANY_TIME);
    EXPECT(6, ecc200_sample_picture(pixels, 0, 1, 1, NULL, symbols, 2, &found) == ECC200_SAMPLE_PICTURE && found == 0);
    EXPECT(5, ecc200_sample_picture(pixels, 40, 40, 39, &options, symbols, 2, &found) == ECC200_SAMPLE_PICTURE);
    EXPECT(4, ecc200_sample_picture(pixels, 40000, 1, 40000, &options, symbols, 2, &found) == ECC200_SAMPLE_PICTURE);
    EXPECT(3, !ecc200_sample_picture(pixels, width, height, 400, NULL, symbols, 0, &found) && found == 0);
    EXPECT(2, !ecc200_sample_picture(pixels, width, height, 400, NULL, symbols, 1, &found) && found == 1);
    int wrong = try_searches(pixels, width, height);
    EXPECT(20 + wrong, wrong == 0);
    EXPECT(1, !ecc200_sample_picture(pixels, width, height, 400, &options, symbols, 2, &found) && found == 1);
    wrong = try_measures(pixels, width, height);
    EXPECT(40 + wrong, wrong == 0);
    uint8_t text[ECC200_MOST_ITEMS];
    size_t length = ecc200_text(&symbols[0].reading, text, sizeof text, NULL);
    printf("%d %d %.*s %.1f", symbols[0].rows, symbols[0].columns, (int)length, (const char *)text,
           symbols[0].corners[0].x);
    return 0;
}
