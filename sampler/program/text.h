/* Texts from outside, such as the names of files, as they may be shown. What ends a line, controls a terminal or turns
 * letters around isn't shown as it is. */
#ifndef TEXT_H
#define TEXT_H

#include <stdio.h>

/* What isn't shown as it is, and what isn't UTF-8, is spelled by its bytes, as \x1B. */
void put_shown(const char *text, FILE *to);

/* In quotes, as JSON has it: what isn't shown as it is, as \u001b; what isn't UTF-8, as U+FFFD. To standard output. */
void put_string(const char *text);

#endif
