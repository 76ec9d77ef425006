/* Writes a message in a form, so many times, in the smallest square. */
#include <ecc200.h>
#include <stdlib.h>
#include <string.h>

static ecc200_symbol symbol;

int main(int count, char **words) {
    ecc200_how how = {0};
    if (count != 4) return 2;
    how.form = (uint16_t)atoi(words[1]);
    for (int times = atoi(words[2]); times > 0; times--)
        if (ecc200_write_bytes((const uint8_t *)words[3], strlen(words[3]), &how, &symbol)) return 1;
    return 0;
}
