/* Uses all that the header defines, so that a compiler with many warnings sees it, as C and as C++. */
#include <ecc200.h>

uint16_t in_profile(const uint16_t *items, size_t count, enum ecc200_profile profile, ecc200_symbol *out);
const char *said(enum ecc200_code code);
size_t text_of(const ecc200_reading *reading, uint8_t *bytes, size_t room);
size_t items_of(const uint8_t *bytes, size_t count, uint16_t *items, size_t room);
int is_bit(const ecc200_place *place);
uint16_t in_extent(const uint8_t *modules, uint16_t rows, uint16_t columns, enum ecc200_extent extent,
                   ecc200_reading *out);

uint16_t in_profile(const uint16_t *items, size_t count, enum ecc200_profile profile, ecc200_symbol *out) {
    ecc200_how how = {ECC200_ASCII, ECC200_SQUARE, 0, 0, ECC200_WIDE, {ECC200_NO_HEAD, 0, 0, {0, 0}}};
    how.form = profile;
    return ecc200_write(items, count, NULL, 0, &how, out);
}

const char *said(enum ecc200_code code) { return ecc200_words(code); }

size_t text_of(const ecc200_reading *reading, uint8_t *bytes, size_t room) {
    int gs1;
    return ecc200_text(reading, bytes, room, &gs1);
}

size_t items_of(const uint8_t *bytes, size_t count, uint16_t *items, size_t room) {
    return ecc200_items(bytes, count, 1, items, room);
}

int is_bit(const ecc200_place *place) { return place->kind == ECC200_BIT; }

uint16_t in_extent(const uint8_t *modules, uint16_t rows, uint16_t columns, enum ecc200_extent extent,
                   ecc200_reading *out) {
    ecc200_scan scan = {0, 0, ECC200_SURE_LIMIT, 0, ECC200_WIDE};
    scan.rows = rows;
    scan.columns = columns;
    scan.extent = extent;
    return ecc200_read(modules, ECC200_CAST(size_t, rows) * columns, NULL, 0, &scan, out);
}
