/* A library with all the names of ecc200.h and another interface, which no caller may use. */
#include <stddef.h>
#include <stdint.h>

uint16_t ecc200_abi(void) { return 2; }
const char *ecc200_version(void) { return "0.0.0"; }
const char *ecc200_code_words(uint16_t code) { return code ? "a fault" : "no fault"; }
uint16_t ecc200_usual_limit(uint16_t side) { return side; }
uint16_t ecc200_read(void) { return 1; }
uint16_t ecc200_write(void) { return 1; }
uint16_t ecc200_write_bytes(void) { return 1; }
uint16_t ecc200_normal(void) { return 1; }
uint16_t ecc200_inspect(void) { return 1; }
uint16_t ecc200_places(void) { return 1; }
void ecc200_sizes(void) {}
