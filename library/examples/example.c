/* One printed symbol, one damaged symbol, one refusal, one text with its charset.
 *
 *     cc -std=c11 example.c $(pkg-config --cflags --libs ecc200) && ./a.out */
#include <ecc200.h>
#include <stdio.h>
#include <string.h>

/* A symbol with a quiet zone of one module on all sides. */
static void print(const ecc200_symbol *symbol) {
    int rows = symbol->rows, columns = symbol->columns;
    for (int row = -1; row <= rows; row++) {
        for (int column = -1; column <= columns; column++) {
            int inside = row >= 0 && row < rows && column >= 0 && column < columns;
            fputs(inside && symbol->modules[row * columns + column] ? "##" : "  ", stdout);
        }
        puts("");
    }
}

/* What a symbol says, with no module doubtful. */
static uint16_t read(const ecc200_symbol *symbol, ecc200_reading *reading) {
    uint16_t rows = symbol->rows, columns = symbol->columns;
    const ecc200_scan scan = {.rows = rows, .columns = columns};
    return ecc200_read(symbol->modules, (size_t)rows * columns, NULL, 0, &scan, reading);
}

int main(void) {
    static ecc200_symbol symbol;
    static ecc200_reading reading;
    const char *text = "Mitsubadoor";
    uint16_t items[ECC200_MOST_ITEMS];
    uint8_t bytes[ECC200_MOST_ITEMS];

    /* a printed symbol */
    size_t count = ecc200_items((const uint8_t *)text, strlen(text), 0, items, ECC200_MOST_ITEMS);
    const ecc200_how how = {.form = ECC200_ASCII, .shape = ECC200_SQUARE};
    if (ecc200_write(items, count, NULL, 0, &how, &symbol) != ECC200_OK)
        return 1;
    print(&symbol);

    /* a damaged symbol: four modules in one corner */
    uint16_t side = symbol.columns;
    for (int at = 1; at < 5; at++)
        symbol.modules[at * side + at] ^= 1;
    if (read(&symbol, &reading) != ECC200_OK)
        return 2;
    count = ecc200_text(&reading, bytes, sizeof bytes, NULL);
    printf("%.*s: %d codewords corrected, %d border modules wrong\n", (int)count, bytes, reading.corrected[0],
           reading.border_faults);

    /* a refusal: a symbol that is cut off below */
    memset(symbol.modules + (side - 1) * side, 0, side);
    if (read(&symbol, &reading) == ECC200_OK)
        return 3;
    printf("refused with %d: %s (%d)\n", reading.fault.code, ecc200_words(reading.fault.code), reading.fault.value);

    /* a text with its charset: ECI 26 is UTF-8 */
    const char *word = "caf\xC3\xA9";
    const ecc200_mark mark = {26, 0};
    const ecc200_how smallest = {.form = ECC200_SMALLEST, .shape = ECC200_ANY};
    count = ecc200_items((const uint8_t *)word, strlen(word), 0, items, ECC200_MOST_ITEMS);
    if (ecc200_write(items, count, &mark, 1, &smallest, &symbol) != ECC200_OK || read(&symbol, &reading) != ECC200_OK)
        return 4;
    printf("%d x %d: ]d%d, %d bytes, ECI %lu at %lu\n", symbol.rows, symbol.columns, reading.identifier,
           reading.item_count, (unsigned long)reading.marks[0].number, (unsigned long)reading.marks[0].place);
    return 0;
}
