/* Times zint's encoder: square symbols, in the encodation that zint chooses, since it can't be told to use ASCII. A
 * fourth argument `fast` asks for its faster choice, which isn't always the shortest. */
#include <zint.h>

#include "timing.h"

static int mode = DATA_MODE;

static void print_grid(const struct zint_symbol *symbol, FILE *grids) {
    for (int row = 0; row < symbol->rows; row++) {
        for (int column = 0; column < symbol->width; column++)
            putc('0' + (symbol->encoded_data[row][column / 8] >> column % 8 & 1), grids);
        putc('\n', grids);
    }
    putc('\n', grids);
}

static void write_with_zint(char *line, int length, FILE *grids) {
    struct zint_symbol *symbol = ZBarcode_Create();
    if (!symbol) refused("zint found no memory");
    symbol->symbology = BARCODE_DATAMATRIX;
    symbol->input_mode = mode;
    symbol->option_3 = DM_SQUARE;
    if (ZBarcode_Encode(symbol, (unsigned char *)line, length) >= ZINT_ERROR) refused(symbol->errtxt);
    if (grids) print_grid(symbol, grids);
    ZBarcode_Delete(symbol);
}

int main(int count, char **words) {
    if (count > 4 && !strcmp(words[4], "fast")) mode = DATA_MODE | FAST_MODE;
    return timed(count, words, write_with_zint);
}
