/* Tries the tables of grades, and the modulation of blocks; for tests/sampler. */
#include "grades.h"

#include <stdio.h>

static int check(const char *what, int got, int wanted) {
    if (got != wanted)
        printf("%s: %d, and not %d\n", what, got, wanted);
    return got != wanted;
}

/* Each grade begins at its number, and a little beside it is the next. */
static int check_table(const char *what, uint8_t (*grade)(double), const double begins[4], double beside) {
    int wrong = 0;
    for (int k = 0; k < 4; k++)
        wrong += check(what, grade(begins[k]), 4 - k) + check(what, grade(begins[k] + beside), 3 - k);
    return wrong;
}

static int check_tables(void) {
    return check_table("contrast", grade_contrast, (const double[]){0.70, 0.55, 0.40, 0.20}, -0.001) +
           check_table("modulation", grade_modulation, (const double[]){0.50, 0.40, 0.30, 0.20}, -0.001) +
           check_table("unused", grade_unused, (const double[]){0.62, 0.50, 0.37, 0.25}, -0.001) +
           check_table("axial", grade_axial, (const double[]){0.06, 0.08, 0.10, 0.12}, 0.001) +
           check_table("grid", grade_grid, (const double[]){0.38, 0.50, 0.63, 0.75}, 0.001);
}

/* Of codewords with grades 0 to 4. */
static int check_block(const char *what, const uint16_t with_grade[5], int checks, int wanted) {
    return check(what, grade_block(with_grade, checks), wanted);
}

int main(void) {
    int wrong = check_tables();
    /* Of 120 codewords, with 60 checks, 95 don't reach grade 4, 20 not 3, which leaves a third of them, 5 not 2. */
    wrong += check_block("the worked case", (const uint16_t[]){2, 3, 15, 75, 25}, 60, 2);
    wrong += check_block("all of the best", (const uint16_t[]){0, 0, 0, 0, 120}, 60, 4);
    wrong += check_block("all of the worst", (const uint16_t[]){120, 0, 0, 0, 0}, 60, 0);
    wrong += check_block("as many as can be corrected", (const uint16_t[]){30, 0, 0, 0, 90}, 60, 0);
    wrong += check_block("as few as a grade wants", (const uint16_t[]){0, 0, 0, 11, 109}, 60, 4);
    wrong += check_block("one more", (const uint16_t[]){0, 0, 0, 12, 108}, 60, 3);
    wrong += check_block("all alike", (const uint16_t[]){0, 120, 0, 0, 0}, 60, 1);
    return wrong != 0;
}
