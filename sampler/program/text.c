#include "text.h"

#include <stdbool.h>

/* How many bytes the UTF-8 character at the start of the text has; 0 if there is none. */
static int utf8_length(const unsigned char *text) {
    int more = text[0] < 0x80   ? 0
               : text[0] < 0xC2 ? -1
               : text[0] < 0xE0 ? 1
               : text[0] < 0xF0 ? 2
               : text[0] < 0xF5 ? 3
                                : -1;
    for (int k = 1; k <= more; k++)
        if ((text[k] & 0xC0) != 0x80)
            return 0;
    bool is_surrogate = text[0] == 0xED && text[1] >= 0xA0,
         is_long = (text[0] == 0xE0 && text[1] < 0xA0) || (text[0] == 0xF0 && text[1] < 0x90);
    return is_surrogate || is_long || (text[0] == 0xF4 && text[1] >= 0x90) ? 0 : more + 1;
}

/* The number of a character of so many bytes. */
static unsigned long number_of(const unsigned char *text, int bytes) {
    static const unsigned char of_first[] = {0, 0x7F, 0x1F, 0x0F, 0x07};
    unsigned long number = text[0] & of_first[bytes];
    for (int k = 1; k < bytes; k++)
        number = number << 6 | (text[k] & 0x3F);
    return number;
}

/* Whether a character is shown as it is: no control, end of a line or of a paragraph, or change of direction. */
static bool is_shown(unsigned long number) {
    bool is_control = number < 0x20 || (number >= 0x7F && number < 0xA0);
    return !is_control && !(number >= 0x2028 && number <= 0x202E) && !(number >= 0x2066 && number <= 0x2069);
}

void put_shown(const char *text, FILE *to) {
    const unsigned char *at = (const unsigned char *)text;
    for (int bytes; *at != 0; at += bytes > 0 ? bytes : 1) {
        bytes = utf8_length(at);
        if (bytes > 0 && is_shown(number_of(at, bytes)))
            fwrite(at, 1, (size_t)bytes, to);
        else
            for (int k = 0; k < bytes || k == 0; k++)
                fprintf(to, "\\x%02X", at[k]);
    }
}

void put_string(const char *text) {
    const unsigned char *at = (const unsigned char *)text;
    putchar('"');
    for (int bytes; *at != 0; at += bytes > 0 ? bytes : 1) {
        bytes = utf8_length(at);
        if (bytes == 0)
            fputs("\\ufffd", stdout);
        else if (*at == '"' || *at == '\\')
            printf("\\%c", *at);
        else if (!is_shown(number_of(at, bytes)))
            printf("\\u%04lx", number_of(at, bytes));
        else
            fwrite(at, 1, (size_t)bytes, stdout);
    }
    putchar('"');
}
