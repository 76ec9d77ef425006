/* What the programs of the two encoders share: the lines of a file, and the best time of writing them all.
 *
 * Each program is called with the file of lines, the file for its grids, and the number of rounds. It writes the grids
 * once, which also warms it up, then times the rounds without printing, and prints the best round's processor time in
 * seconds. */
#ifndef TIMING_H
#define TIMING_H

#include <stdio.h>
#include <stdlib.h>
#include <string.h>
#include <time.h>

/* The most lines that are timed, and the most bytes of a line. */
enum { MOST = 100000, MOST_BYTES = 2046 };

/* Encodes one line, and prints its grid to `grids` unless that is NULL. Ends the program if the encoder refuses. */
typedef void writer(char *line, int length, FILE *grids);

/* Lines without their line ends. */
struct lines {
    char **line;
    int *length;
    int count;
};

static void refused(const char *why) {
    fprintf(stderr, "%s\n", why);
    exit(1);
}

/* The lines of a file. Ends the program if there are more than MOST, or one has more than MOST_BYTES. */
static struct lines lines_of(const char *path) {
    struct lines lines = {calloc(MOST, sizeof(char *)), calloc(MOST, sizeof(int)), 0};
    FILE *file = fopen(path, "r");
    char text[MOST_BYTES + 2];
    if (!file || !lines.line || !lines.length) refused(path);
    while (fgets(text, sizeof text, file)) {
        int length = (int)strcspn(text, "\n");
        if (length > MOST_BYTES || lines.count == MOST) refused("too many lines, or too long a line");
        text[length] = 0;
        lines.line[lines.count] = strdup(text);
        if (!lines.line[lines.count]) refused(path);
        lines.length[lines.count++] = length;
    }
    if (ferror(file)) refused(path);
    fclose(file);
    return lines;
}

static void write_all(writer *write, const struct lines *lines, FILE *grids) {
    for (int i = 0; i < lines->count; i++) write(lines->line[i], lines->length[i], grids);
}

/* The seconds of processor time of one round. */
static double round_of(writer *write, const struct lines *lines) {
    struct timespec from, to;
    clock_gettime(CLOCK_PROCESS_CPUTIME_ID, &from);
    write_all(write, lines, NULL);
    clock_gettime(CLOCK_PROCESS_CPUTIME_ID, &to);
    return (double)(to.tv_sec - from.tv_sec) + (double)(to.tv_nsec - from.tv_nsec) * 1e-9;
}

/* The whole of each program. */
static int timed(int count, char **words, writer *write) {
    if (count < 4) refused("lines, grids and rounds are asked for");
    struct lines lines = lines_of(words[1]);
    FILE *grids = fopen(words[2], "w");
    if (!grids) refused(words[2]);
    write_all(write, &lines, grids);
    if (fclose(grids)) refused(words[2]);
    double best = round_of(write, &lines);
    for (int rounds = atoi(words[3]); rounds > 1; rounds--) {
        double seconds = round_of(write, &lines);
        best = seconds < best ? seconds : best;
    }
    printf("%.9f\n", best);
    return 0;
}

#endif
