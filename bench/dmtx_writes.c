/* Times libdmtx's encoder: square symbols in ASCII encodation, drawn at one pixel a module without a margin, which is
 * the least work that its call can be asked for. */
#include <dmtx.h>

#include "timing.h"

static void print_grid(const DmtxEncode *encode, FILE *grids) {
    int size = encode->region.sizeIdx;
    int side = dmtxGetSymbolAttribute(DmtxSymAttribSymbolRows, size);
    for (int row = side - 1; row >= 0; row--) {
        for (int column = 0; column < side; column++)
            putc(dmtxSymbolModuleStatus(encode->message, size, row, column) & DmtxModuleOnRGB ? '1' : '0', grids);
        putc('\n', grids);
    }
    putc('\n', grids);
}

static void write_with_libdmtx(char *line, int length, FILE *grids) {
    DmtxEncode *encode = dmtxEncodeCreate();
    if (!encode) refused("libdmtx found no memory");
    dmtxEncodeSetProp(encode, DmtxPropScheme, DmtxSchemeAscii);
    dmtxEncodeSetProp(encode, DmtxPropSizeRequest, DmtxSymbolSquareAuto);
    dmtxEncodeSetProp(encode, DmtxPropModuleSize, 1);
    dmtxEncodeSetProp(encode, DmtxPropMarginSize, 0);
    if (dmtxEncodeDataMatrix(encode, length, (unsigned char *)line) != DmtxPass) refused("libdmtx refused a line");
    if (grids) print_grid(encode, grids);
    dmtxEncodeDestroy(&encode);
}

int main(int count, char **words) { return timed(count, words, write_with_libdmtx); }
