#include "grades.h"

enum { BEST = 4 };

/* The grade of a number by those at which grades 4 to 1 begin. The last bit of a division decides nothing. */
static uint8_t grade_by(const double begins[BEST], double number) {
    uint8_t grade = BEST;
    for (int k = 0; k < BEST && number < begins[k] - 1e-9; k++)
        grade--;
    return grade;
}

uint8_t grade_contrast(double contrast) {
    return grade_by((const double[BEST]){0.70, 0.55, 0.40, 0.20}, contrast);
}

uint8_t grade_modulation(double modulation) {
    return grade_by((const double[BEST]){0.50, 0.40, 0.30, 0.20}, modulation);
}

uint8_t grade_unused(double unused) {
    return grade_by((const double[BEST]){0.62, 0.50, 0.37, 0.25}, unused);
}

uint8_t grade_axial(double axial) {
    return grade_by((const double[BEST]){-0.06, -0.08, -0.10, -0.12}, -axial);
}

uint8_t grade_grid(double grid) {
    return grade_by((const double[BEST]){-0.38, -0.50, -0.63, -0.75}, -grid);
}

uint8_t grade_block(const uint16_t with_grade[5], int checks) {
    uint8_t best = 0;
    for (int grade = 1; grade <= BEST; grade++) {
        int below = 0;
        for (int k = 0; k < grade; k++)
            below += with_grade[k];
        uint8_t unused = 2 * below > checks ? 0 : grade_unused(1 - 2.0 * below / checks),
                lower = unused < grade ? unused : (uint8_t)grade;
        best = lower > best ? lower : best;
    }
    return best;
}
