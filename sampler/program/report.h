/* What is printed of a symbol. */
#ifndef REPORT_H
#define REPORT_H

#include <stdbool.h>

#include "../ecc200_sample.h"

/* Why a symbol is no record that dm_tool takes, after 'it', or NULL if it is one. Its records are squares of sides 10
 * to 104 that say a message, without a head and without ECI marks. */
const char *report_no_record(const ecc200_sample *symbol);

/* As a record: a line of 0 and 1 for each row, from the top, and an empty line. To standard output. */
void report_record(const ecc200_sample *symbol);

/* As a line of JSON, to standard output, with how good the print is, if that isn't NULL. `is_complete`: whether the
 * search didn't end early. */
void report_json(const char *file, const ecc200_sample *symbol, const ecc200_sample_quality *quality, bool is_complete);

/* The file, and the corners in pixels: top left, top right, bottom right, bottom left. To standard error. */
void report_corners(const char *file, const ecc200_sample *symbol);

#endif
