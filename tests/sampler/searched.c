/* Searches a picture from standard input for at most so many symbols, with so many percent of the usual work, and
 * prints, a line each, what they say, head, marks and items, and how the search ended; for tests/sampler. */
#include <ecc200_sample.h>
#include <stdio.h>
#include <stdlib.h>

static void print_head(const ecc200_head *head) {
    if (head->kind == ECC200_PART)
        printf("part %d of %d, file %d %d;", head->part, head->parts, head->file[0], head->file[1]);
    else
        printf("%s;", head->kind == ECC200_PROGRAMMING ? "programming" : head->kind == ECC200_NO_HEAD ? "none" : "?");
}

static void print_reading(const ecc200_reading *reading) {
    print_head(&reading->head);
    for (int k = 0; k < reading->mark_count; k++)
        printf(" %u@%u", (unsigned)reading->marks[k].number, (unsigned)reading->marks[k].place);
    fputs("; ", stdout);
    for (int k = 0; k < reading->item_count; k++)
        putchar(reading->items[k]);
    putchar('\n');
}

/* Whether ecc200_read says the same of the grid in the wide extent. */
static int is_said_again(const ecc200_sample *symbol) {
    static ecc200_reading again;
    size_t count = (size_t)symbol->rows * symbol->columns;
    const ecc200_scan scan = {symbol->rows, symbol->columns, ECC200_GIVEN_LIMIT, symbol->border_limit, ECC200_WIDE};
    uint16_t code = ecc200_read(symbol->modules, count, symbol->doubtful, count, &scan, &again);
    return code == ECC200_OK && again.item_count == symbol->reading.item_count &&
           again.mark_count == symbol->reading.mark_count && again.head.kind == symbol->reading.head.kind;
}

static int print_found(const ecc200_sample_search *search) {
    static const char *const ends[] = {"whole", "room", "time", "work"};
    for (size_t k = 0; k < search->count; k++) {
        if (!is_said_again(&search->symbols[k]))
            return 4;
        print_reading(&search->symbols[k].reading);
    }
    puts(ends[search->ended]);
    return 0;
}

int main(int count, char **words) {
    ecc200_sample_search search = ecc200_sample_usual_search();
    size_t width, height;
    if (count != 3 || scanf("P5\n# made for a test\n%zu %zu\n255", &width, &height) != 2 || getchar() != '\n')
        return 2;
    search.room = (size_t)atoi(words[1]), search.effort = (uint16_t)atoi(words[2]);
    search.symbols = calloc(search.room, sizeof *search.symbols);
    uint8_t *pixels = malloc(width * height);
    int wrong = search.symbols == NULL || pixels == NULL || fread(pixels, 1, width * height, stdin) != width * height ||
                        ecc200_sample_find(pixels, width, height, width, &search) != ECC200_SAMPLE_OK
                    ? 3
                    : print_found(&search);
    free(search.symbols);
    free(pixels);
    return wrong;
}
