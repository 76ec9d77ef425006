/* Looks for a symbol in a picture of one pixel: what is printed is the interface's number, the code, and the count. */
#include <ecc200_sample.h>
#include <stdio.h>

int main(void) {
    static ecc200_sample symbol;
    const uint8_t light = 255;
    size_t count = 1;
    uint16_t code = ecc200_sample_picture(&light, 1, 1, 1, NULL, &symbol, 1, &count);
    printf("%d %d %zu\n", ecc200_sample_abi(), code, count);
    return 0;
}
