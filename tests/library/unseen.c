/* What is refused for its counts or its size is refused before any module is looked at: here none can be. */
#define _GNU_SOURCE
#include <ecc200.h>
#include <stdio.h>
#include <stdlib.h>
#include <sys/mman.h>

typedef struct {
    size_t count, marked;
    uint16_t rows, columns, code;
} refusal;

static const refusal refusals[] = {
    {0, 20000, 100, 200, ECC200_SHAPE},     {99, 100, 10, 10, ECC200_SHAPE},
    {20000, 20000, 100, 200, ECC200_SIZE},  {10000, 10000, 100, 100, ECC200_SIZE},
    {144, 100, 8, 18, ECC200_DOUBT},        {100, 1, 10, 10, ECC200_DOUBT},
    {10816, 20736, 104, 104, ECC200_DOUBT}, {20736, 20735, 144, 144, ECC200_DOUBT},
};

static ecc200_reading reading;
static ecc200_symbol symbol;
static ecc200_inspection inspection;

static int told(const char *call, const refusal *it, uint16_t code) {
    if (code == it->code)
        return 0;
    printf("%s of %zu modules, %zu of them doubtful, in %u x %u: %u\n", call, it->count, it->marked, it->rows,
           it->columns, code);
    return 1;
}

int main(void) {
    const uint8_t *at = mmap(0, ECC200_MOST_MODULES, PROT_NONE, MAP_PRIVATE | MAP_ANONYMOUS, -1, 0);
    int wrong = 0;
    if (at == MAP_FAILED)
        return 2;
    for (size_t i = 0; i < sizeof refusals / sizeof *refusals; i++) {
        const refusal *it = &refusals[i];
        const ecc200_scan scan = {.rows = it->rows, .columns = it->columns, .limit = ECC200_SURE_LIMIT};
        wrong |= told("read", it, ecc200_read(at, it->count, at, it->marked, &scan, &reading));
        wrong |= told("normal", it, ecc200_normal(at, it->count, at, it->marked, &scan, ECC200_ASCII, &symbol));
        wrong |= told("inspect", it, ecc200_inspect(at, it->count, at, it->marked, it->rows, it->columns, &inspection));
    }
    return wrong;
}
