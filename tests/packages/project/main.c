/* Writes a symbol, hurts it, and reads it: prints the version, the message, and how many were corrected. */
#include <ecc200.h>
#include <stdio.h>
#include <string.h>

int main(void) {
    static ecc200_symbol symbol;
    static ecc200_reading reading;
    const char *text = "Mitsubadoor";
    uint8_t bytes[ECC200_MOST_ITEMS];
    const ecc200_how how = {.shape = ECC200_RECTANGLE};
    uint16_t code = ecc200_write_bytes((const uint8_t *)text, strlen(text), &how, &symbol);
    if (code != ECC200_OK) {
        puts(ecc200_code_words(code));
        return 1;
    }
    symbol.modules[symbol.columns + 1] ^= 1;
    size_t modules = (size_t)symbol.rows * symbol.columns;
    const ecc200_scan scan = {.rows = symbol.rows, .columns = symbol.columns, .extent = ECC200_USUAL};
    if (ecc200_read(symbol.modules, modules, NULL, 0, &scan, &reading) != ECC200_OK)
        return 2;
    size_t count = ecc200_text(&reading, bytes, sizeof bytes, NULL);
    printf("%s %.*s %d\n", ecc200_version(), (int)count, (const char *)bytes, reading.corrected[0]);
    return 0;
}
