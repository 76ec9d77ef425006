/* dm_sample: finds Data Matrix symbols in pictures, and prints their grids. */
#include <signal.h>
#include <stdio.h>
#include <stdlib.h>

#include "options.h"
#include "picture.h"
#include "report.h"
#include "text.h"

enum { MOST_SYMBOLS = 1024, MOST_UNREAD = 32 };

/* Where the symbols of a picture go. */
struct rooms {
    ecc200_sample *symbols, *unread;
};

/* That a file couldn't be read is worse than that a search ended early. */
static enum outcome worse(enum outcome one, enum outcome other) {
    static const int badness[] = {[FINE] = 0, [NONE_FOUND] = 1, [ENDED_EARLY] = 2, [WRONG_USAGE] = 3, [FAILED] = 4};
    return badness[one] > badness[other] ? one : other;
}

/* Begins a line on standard error about a file, behind all that was printed before. */
static void begin_line(const char *file) {
    fflush(stdout);
    fputs("dm_sample: ", stderr);
    put_shown(file, stderr);
    fputs(": ", stderr);
}

static enum outcome complain(const char *file, const char *problem) {
    begin_line(file);
    put_shown(problem, stderr);
    fputc('\n', stderr);
    return FAILED;
}

/* Says that a symbol which was found can't be handed on, and why. */
static enum outcome hold_back(const char *file, const ecc200_sample *symbol, const char *why) {
    begin_line(file);
    fprintf(stderr, "the symbol of %d by %d modules at %.1f,%.1f %s: --json has it\n", symbol->rows, symbol->columns,
            symbol->corners[0].x, symbol->corners[0].y, why);
    return NONE_FOUND;
}

/* Says that a search ended early, and why. */
static enum outcome say_early(const char *file, const ecc200_sample_search *search) {
    begin_line(file);
    fputs("the search ended early, ", stderr);
    const char *what = search->count > 0 ? "more symbols" : "a symbol";
    if (search->ended == ECC200_SAMPLE_ROOM)
        fprintf(stderr, "with %zu symbols: there may be more\n", search->count);
    else if (search->ended == ECC200_SAMPLE_TIME)
        fprintf(stderr, "after %u milliseconds: there may be %s\n", search->milliseconds, what);
    else
        fprintf(stderr, "after the usual work: there may be %s, --time searches longer\n", what);
    return ENDED_EARLY;
}

/* Says which code of another kind a picture shows in which no symbol was found, if one is clear. */
static void say_other(const char *file, const struct picture *picture) {
    ecc200_sample_point corners[4];
    const char *code =
        ecc200_sample_other_code(picture->luminance, picture->width, picture->height, picture->width, corners);
    if (code != NULL) {
        begin_line(file);
        fprintf(stderr, "no Data Matrix symbol was found, but %s\n", code);
    }
}

/* Reports a symbol as a line of JSON, and how good its print is, if that is asked for. */
static enum outcome report_line(const struct options *options, const char *file, const struct picture *picture,
                                const ecc200_sample *symbol, bool is_complete) {
    static ecc200_sample_quality quality;
    if (options->quality && ecc200_sample_measure(picture->luminance, picture->width, picture->height, picture->width,
                                                  symbol, &quality) != ECC200_SAMPLE_OK)
        return complain(file, "no memory");
    report_json(file, symbol, options->quality ? &quality : NULL, is_complete);
    return FINE;
}

static enum outcome report(const struct options *options, const char *file, const struct picture *picture,
                           const ecc200_sample *symbol, bool is_complete) {
    if (options->json)
        return report_line(options, file, picture, symbol, is_complete);
    const char *why = report_no_record(symbol);
    if (why != NULL)
        return hold_back(file, symbol, why);
    if (options->corners) {
        fflush(stdout);
        report_corners(file, symbol);
    }
    report_record(symbol);
    return FINE;
}

/* Whether there may be more symbols than were asked for and found. */
static bool is_early(const struct options *options, const ecc200_sample_search *search) {
    return search->ended != ECC200_SAMPLE_WHOLE && (options->all || search->ended != ECC200_SAMPLE_ROOM);
}

/* Reports what wasn't read: by JSON all of it; else the likeliest grid, where nothing was read. */
static void report_unread(const struct options *options, const char *file, const struct picture *picture,
                          const ecc200_sample_search *search, bool is_complete) {
    size_t most = options->json ? search->unread_count : search->count == 0 && search->unread_count > 0 ? 1 : 0;
    for (size_t k = 0; k < most; k++)
        report(options, file, picture, &search->unread[k], is_complete);
}

/* Samples a picture. */
static enum outcome sample(const struct options *options, const char *file, const struct picture *picture,
                           const struct rooms *rooms) {
    ecc200_sample_search search = options->search;
    search.symbols = rooms->symbols, search.room = options->all ? MOST_SYMBOLS : 1;
    search.unread = rooms->unread, search.unread_room = options->unread ? MOST_UNREAD : 0;
    uint16_t code =
        ecc200_sample_find(picture->luminance, picture->width, picture->height, picture->width, &search);
    if (code != ECC200_SAMPLE_OK)
        return complain(file, code == ECC200_SAMPLE_NO_MEMORY ? "no memory" : "a size that isn't sampled");
    enum outcome outcome = search.count > 0 || search.unread_count > 0 ? FINE : NONE_FOUND;
    bool is_complete = !is_early(options, &search);
    for (size_t k = 0; k < search.count; k++)
        outcome = worse(outcome, report(options, file, picture, &search.symbols[k], is_complete));
    report_unread(options, file, picture, &search, is_complete);
    if (search.count == 0)
        say_other(file, picture);
    return is_complete ? outcome : worse(outcome, say_early(file, &search));
}

static enum outcome do_file(const struct options *options, const char *file, const struct rooms *rooms) {
    struct picture picture;
    const char *problem = picture_read(file, &picture);
    if (problem != NULL)
        return complain(file, problem);
    enum outcome outcome = sample(options, file, &picture, rooms);
    picture_free(&picture);
    return outcome;
}

static enum outcome do_files(const struct options *options, char *const *names, int count,
                             const struct rooms *rooms) {
    enum outcome outcome = FINE;
    for (int k = 0; k < count; k++) {
        outcome = worse(outcome, do_file(options, names[k], rooms));
        if (fflush(stdout) != 0 || ferror(stdout)) {
            fputs("dm_sample: write failed\n", stderr);
            return FAILED;
        }
    }
    return outcome;
}

int main(int count, char **words) {
    static char *const standard_input[] = {"-"};
    struct options options;
    signal(SIGPIPE, SIG_IGN); /* a write to a closed pipe then fails like any other */
    int first = options_read(count, words, &options);
    struct rooms rooms = {malloc(MOST_SYMBOLS * sizeof *rooms.symbols), malloc(MOST_UNREAD * sizeof *rooms.unread)};
    enum outcome outcome =
        rooms.symbols == NULL || rooms.unread == NULL ? complain("-", "no memory")
        : first < count                               ? do_files(&options, words + first, count - first, &rooms)
                                                      : do_files(&options, standard_input, 1, &rooms);
    free(rooms.symbols);
    free(rooms.unread);
    return (int)outcome;
}
