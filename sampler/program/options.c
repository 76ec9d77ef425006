#include "options.h"

#include <errno.h>
#include <getopt.h>
#include <stdio.h>
#include <stdlib.h>

static const char USAGE[] =
    "usage: dm_sample [--all] [--corners] [--json [--quality]] [--unread] [--time MS] [--margin N] [--min-modules N] "
    "[FILE..]\n";
static const char HELP[] =
    "\n"
    "Finds Data Matrix symbols in pictures (PNG, JPEG, PNM), and prints their grids, upright, as `dm_tool read` takes "
    "them:\n"
    "a line of 0 and 1 for each row of modules, and an empty line. Those that it doesn't take are named on standard "
    "error:\n"
    "rectangles, squares of more than 104 modules a side, symbols that are read without doubtful modules, and those "
    "with an ECI,\n"
    "of structured append or for reader programming. Without a FILE, or for -, it reads standard input.\n"
    "\n"
    "  -a, --all            all symbols of a picture, and not only the first that is found\n"
    "  -c, --corners        before each record, its file and corners on standard error: top left, top right, bottom "
    "right, bottom left\n"
    "  -j, --json           a line of JSON for each symbol of any kind instead of a record: also rows, columns, "
    "message, ECI marks,\n"
    "                       corrections and corners\n"
    "  -u, --unread         where no symbol is read, print the likeliest grid that has a symbol's border; with --json "
    "every one\n"
    "                       that isn't read, with the reason\n"
    "  -q, --quality        with --json, also how good the print is, as the picture shows it, uncalibrated\n"
    "  -t, --time MS        how long to try at most for each picture, in milliseconds; usually so much work, which is "
    "the same\n"
    "                       on any machine\n"
    "  -m, --margin N       take only readings that leave N corrections of each block unused (usually 0)\n"
    "      --min-modules N  pass over symbols with a side of fewer modules\n"
    "  -h, --help           print this, and end\n"
    "  -V, --version        print the version, and end\n"
    "\n"
    "Status: 0; 1: in some picture nothing was found, or a symbol that is no record; 2: the command line is wrong; "
    "3: a\n"
    "file couldn't be read, or a write failed; 4: a search ended early, so that there may be more.\n";

_Noreturn static void refuse_usage(void) {
    fputs("dm_sample: ", stderr);
    fputs(USAGE, stderr);
    exit(WRONG_USAGE);
}

/* Prints a text and ends the program. */
_Noreturn static void answer(const char *first, const char *second) {
    bool is_written = fputs(first, stdout) != EOF && fputs(second, stdout) != EOF && fflush(stdout) == 0;
    if (!is_written)
        fputs("dm_sample: write failed\n", stderr);
    exit(is_written ? FINE : FAILED);
}

static unsigned long number(const char *text, unsigned long most) {
    char *end;
    errno = 0;
    unsigned long value = strtoul(text, &end, 10);
    if (text[0] < '0' || text[0] > '9' || *end != 0 || errno != 0 || value > most)
        refuse_usage();
    return value;
}

int options_read(int count, char **words, struct options *out) {
    enum { LEAST_MODULES = 256 };
    static const struct option names[] = {{"all", no_argument, NULL, 'a'},
                                          {"corners", no_argument, NULL, 'c'},
                                          {"json", no_argument, NULL, 'j'},
                                          {"unread", no_argument, NULL, 'u'},
                                          {"quality", no_argument, NULL, 'q'},
                                          {"time", required_argument, NULL, 't'},
                                          {"margin", required_argument, NULL, 'm'},
                                          {"min-modules", required_argument, NULL, LEAST_MODULES},
                                          {"help", no_argument, NULL, 'h'},
                                          {"version", no_argument, NULL, 'V'},
                                          {0}};
    *out = (struct options){.search = ecc200_sample_usual_search()};
    opterr = 0;
    for (int option; (option = getopt_long(count, words, "acjuqt:m:hV", names, NULL)) != -1;) {
        switch (option) {
        case 'a': out->all = true; break;
        case 'c': out->corners = true; break;
        case 'j': out->json = true; break;
        case 'u': out->unread = true; break;
        case 'q': out->quality = true; break;
        case 't': out->search.milliseconds = (uint32_t)number(optarg, UINT32_MAX); break;
        case 'm': out->search.margin = (uint16_t)number(optarg, UINT16_MAX); break;
        case LEAST_MODULES: out->search.least_side = (uint16_t)number(optarg, UINT16_MAX); break;
        case 'h': answer(USAGE, HELP);
        case 'V': answer("dm_sample " VERSION, "\n");
        default: refuse_usage();
        }
    }
    if (out->quality && !out->json)
        refuse_usage();
    return optind;
}
