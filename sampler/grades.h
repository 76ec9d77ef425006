/* Grades of ISO/IEC 15415, 4 for A to 0 for F, by the numbers at which they begin. */
#ifndef GRADES_H
#define GRADES_H

#include <stdint.h>

/* Of the contrast, of one codeword's modulation, and of error correction that is unused: the more the better. Of axial
 * and grid nonuniformity: the less the better. */
uint8_t grade_contrast(double contrast);
uint8_t grade_modulation(double modulation);
uint8_t grade_unused(double unused);
uint8_t grade_axial(double axial);
uint8_t grade_grid(double grid);

/* Of the modulations of a block with so many check codewords, of whose codewords so many have each grade: for each
 * grade, codewords that don't reach it are taken for wrong ones; what error correction is then unused has a grade too;
 * and the lower of both counts, of that grade for which it is the highest. */
uint8_t grade_block(const uint16_t with_grade[5], int checks);

#endif
