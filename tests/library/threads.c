/* Eight threads, each with a stack of as many KiB as the first argument says, read, normalise and inspect at the same
 * time, as often as the second says: each answer must be that of one thread. Then prints each call's bytes of stack. */
#define _GNU_SOURCE
#include <ecc200.h>
#include <pthread.h>
#include <stdio.h>
#include <stdlib.h>
#include <string.h>

#define NOT_INLINE __attribute__((__noinline__))

enum { THREADS = 8, CASES = 64, STACK = 1 << 19 };

typedef struct {
    ecc200_reading reading;
    ecc200_symbol normal;
    ecc200_inspection inspection;
} answers;

typedef struct {
    uint8_t modules[ECC200_MOST_MODULES], doubtful[ECC200_MOST_MODULES];
    uint16_t rows, columns;
    answers said;
} example;

typedef struct {
    unsigned first;
    int wrong;
    answers said;
} job;

static example examples[CASES], largest, marked; /* the largest symbols, of bytes and of marks */
static unsigned rounds;
static uint16_t items[ECC200_MOST_ITEMS];
static uint8_t many[ECC200_MOST_ITEMS];
static size_t most_data; /* codewords of the largest size */

/* what the calls say of an example, with nothing from before in the elements that don't count */
static void answer(const example *e, answers *said) {
    size_t count = (size_t)e->rows * e->columns, marked = e->rows % 4 ? count : 0;
    const ecc200_scan scan = {e->rows, e->columns, (uint16_t)(e->columns % 4), 2,
                              (uint16_t)(e->rows % 3 ? ECC200_WIDE : ECC200_USUAL)};
    memset(said, 0, sizeof *said);
    ecc200_read(e->modules, count, e->doubtful, marked, &scan, &said->reading);
    ecc200_normal(e->modules, count, e->doubtful, marked, &scan, e->rows % 4 == 0, &said->normal);
    ecc200_inspect(e->modules, count, e->doubtful, marked, e->rows, e->columns, &said->inspection);
}

static void *work(void *at) {
    job *j = at;
    for (unsigned i = 0; i < rounds; i++) {
        example *e = &examples[(i * 7 + j->first) % CASES];
        answer(e, &j->said);
        j->wrong += memcmp(&j->said, &e->said, sizeof j->said) != 0;
    }
    return 0;
}

/* a symbol of random items, with some modules turned over, and some of them known to be */
static void make(example *e, size_t count, int turns) {
    static ecc200_symbol symbol;
    ecc200_how how = {.form = (uint16_t)(rand() % 2 ? ECC200_SMALLEST : ECC200_ASCII), .extent = ECC200_WIDE};
    how.head.kind = (uint16_t)(rand() % 4 ? ECC200_NO_HEAD : ECC200_PROGRAMMING);
    const ecc200_mark marks[] = {{26, 0}, {999999, (uint32_t)count / 2}};
    for (size_t i = 0; i < count; i++)
        items[i] = (uint16_t)(rand() % 257);
    how.shape = (uint16_t)(count < 50 ? rand() % 4 : ECC200_ANY);
    if (ecc200_write(items, count, marks, rand() % 3, &how, &symbol)) {
        how.shape = ECC200_SQUARE;
        if (ecc200_write(items, count, marks, 2, &how, &symbol))
            exit(2);
    }
    e->rows = symbol.rows, e->columns = symbol.columns;
    memcpy(e->modules, symbol.modules, sizeof symbol.modules);
    for (; turns > 0; turns--) {
        int at = rand() % (e->rows * e->columns);
        e->modules[at] ^= 1, e->doubtful[at] = turns % 2;
    }
    answer(e, &e->said);
}

static int threads_agree(size_t kib) {
    static job jobs[THREADS];
    pthread_t threads[THREADS];
    pthread_attr_t attributes;
    pthread_attr_init(&attributes);
    if (pthread_attr_setstacksize(&attributes, kib << 10))
        exit(2);
    for (unsigned i = 0; i < THREADS; i++) {
        jobs[i].first = i;
        if (pthread_create(&threads[i], &attributes, work, &jobs[i]))
            exit(2);
    }
    int wrong = 0;
    for (unsigned i = 0; i < THREADS; i++)
        pthread_join(threads[i], 0), wrong += jobs[i].wrong;
    return wrong == 0;
}

static const ecc200_how in_ascii = {.form = ECC200_ASCII, .shape = ECC200_ANY};
static const ecc200_how shorter = {.form = ECC200_SHORTER, .shape = ECC200_SQUARE};
static const ecc200_how smallest = {.form = ECC200_SMALLEST, .shape = ECC200_ANY};
static ecc200_mark marks[ECC200_MOST_MARKS];

static ecc200_scan scan = {ECC200_MOST_ROWS, ECC200_MOST_COLUMNS, ECC200_ANY_LIMIT, 0, ECC200_WIDE};

static void read_of(example *e, size_t doubtful, uint16_t limit) {
    scan.limit = limit;
    ecc200_read(e->modules, ECC200_MOST_MODULES, e->doubtful, doubtful, &scan, &e->said.reading);
}
static void inspect(example *e) {
    ecc200_inspect(e->modules, ECC200_MOST_MODULES, e->doubtful, ECC200_MOST_MODULES, ECC200_MOST_ROWS,
                   ECC200_MOST_COLUMNS, &e->said.inspection);
}
static void normal_of(example *e, uint16_t profile) {
    ecc200_normal(e->modules, ECC200_MOST_MODULES, e->doubtful, ECC200_MOST_MODULES, &scan, profile, &e->said.normal);
}

/* makes the call with a number, or none, and gives its name, or NULL if there is none; in the first two of digits */
static NOT_INLINE const char *make_call(int number) {
    static ecc200_place_table places;
    static ecc200_size_table sizes;
    ecc200_symbol *out = &largest.said.normal;
    size_t few = most_data - 3, most = ECC200_MOST_MARKS;
    switch (number) {
    case -1: return "";
    case 0: return ecc200_write(items, 2 * most_data, NULL, 0, &in_ascii, out), "ecc200_write";
    case 1: return ecc200_write(items, 2 * most_data, NULL, 0, &smallest, out), "ecc200_write, smallest, digits";
    case 2: return ecc200_write(items, few, NULL, 0, &shorter, out), "ecc200_write, shorter";
    case 3: return ecc200_write(items, few, NULL, 0, &smallest, out), "ecc200_write, smallest";
    case 4: return ecc200_write(items, 0, marks, most, &in_ascii, out), "ecc200_write, marks";
    case 5: return ecc200_write(items, 9, marks, most - 9, &smallest, out), "ecc200_write, smallest, marks";
    case 6: return ecc200_write_bytes(many, few, &shorter, out), "ecc200_write_bytes";
    case 7: return read_of(&largest, 0, ECC200_ANY_LIMIT), "ecc200_read";
    case 8: return read_of(&largest, ECC200_MOST_MODULES, ECC200_SURE_LIMIT), "ecc200_read, doubtful modules";
    case 9: return read_of(&marked, ECC200_MOST_MODULES, ECC200_ANY_LIMIT), "ecc200_read, marks";
    case 10: return inspect(&largest), "ecc200_inspect";
    case 11: return inspect(&marked), "ecc200_inspect, marks";
    case 12: return normal_of(&largest, ECC200_ASCII), "ecc200_normal";
    case 13: return normal_of(&largest, ECC200_SHORTER), "ecc200_normal, shorter";
    case 14: return normal_of(&marked, ECC200_SHORTER), "ecc200_normal, marks";
    case 15: return ecc200_places(ECC200_MOST_ROWS, ECC200_MOST_COLUMNS, &places), "ecc200_places";
    case 16: return ecc200_sizes(&sizes), "ecc200_sizes";
    default: return NULL;
    }
}

/* Fills the stack below its caller's frame with a pattern, or tells how many bytes of that are something else. */
static NOT_INLINE size_t below(int fills) {
    volatile uint8_t room[STACK], *volatile at = room;
    size_t low = 0;
    for (size_t i = 0; fills && i < STACK; i++)
        at[i] = 0xA5;
    while (low < STACK && at[low] == 0xA5)
        low++;
    return STACK - low;
}

/* how many bytes of the stack a call overwrites, and its name */
static size_t touched(int number, const char **name) {
    below(1), *name = make_call(number);
    return below(0);
}

int main(int argc, char **argv) {
    size_t kib = argc > 1 ? strtoul(argv[1], 0, 10) : 64;
    rounds = argc > 2 ? (unsigned)strtoul(argv[2], 0, 10) : 300;
    srand(1);
    for (int i = 0; i < CASES; i++)
        make(&examples[i], (size_t)(rand() % 300), rand() % 40);
    if (!threads_agree(kib))
        return puts("the threads' answers differ"), 1;
    ecc200_size_table sizes;
    ecc200_sizes(&sizes);
    most_data = sizes.sizes[ECC200_SIZE_COUNT - 1].data_codewords;
    for (size_t i = 0; i < most_data; i++)
        items[i] = 255;
    if (ecc200_write(items, most_data - 3, NULL, 0, &shorter, &largest.said.normal) ||
        largest.said.normal.rows != ECC200_MOST_ROWS)
        return puts("no symbol of the largest side"), 1;
    memcpy(largest.modules, largest.said.normal.modules, sizeof largest.modules);
    if (ecc200_write(items, 0, marks, ECC200_MOST_MARKS, &in_ascii, &marked.said.normal) ||
        marked.said.normal.rows != ECC200_MOST_ROWS)
        return puts("no symbol of as many marks as there can be"), 1;
    memcpy(marked.modules, marked.said.normal.modules, sizeof marked.modules);
    for (int turns = 60; turns > 0; turns--) {
        int at = rand() % ECC200_MOST_MODULES;
        largest.modules[at] ^= 1, largest.doubtful[at] = turns % 2;
    }
    const char *name;
    size_t alone = touched(-1, &name);
    for (int number = 0; name; number++) {
        for (size_t k = 0; k < ECC200_MOST_ITEMS; k++)
            items[k] = number < 2 ? (uint16_t)('0' + k % 10) : 255;
        size_t all = touched(number, &name);
        if (name)
            printf("%s %zu\n", name, all - alone);
    }
    return 0;
}
