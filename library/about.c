/* What the library says about itself, in C and not proved: its version, and its codes in words. */
#include "ecc200.h"

const char *ecc200_version(void) {
    return ECC200_VERSION;
}

const char *ecc200_code_words(uint16_t code) {
    return ecc200_words(code);
}
