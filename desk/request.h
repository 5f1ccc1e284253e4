/* What was asked for on the command line. */
#ifndef DESK_REQUEST_H
#define DESK_REQUEST_H

#include <stdint.h>

/* An option that was not given is null, -1 or 0. A file's name `-` is standard input, or standard output for `output`. */
struct request {
    const char *case_name; /* the first file that is given */
    char **files;          /* all of them, for a command that takes several */
    unsigned file_count;
    const char *book_name; /* --book FILE */
    const char *names;     /* --names TEXT: the text with the names of a case that is given as bytes */
    const char *output;    /* -o FILE, --output FILE */
    const char *train;     /* --train NAME or number */
    const char *delays;    /* --delays +3,+0,..: a delay of each train, in minutes */
    const char *choice;    /* --choice 1,0,..: an index of each train, counted from 0 in its table */
    const char *part;      /* --part I/N: the I-th of N parts of the choices */
    int32_t limit;         /* --limit M: 0 to 65535 */
    int32_t stop;          /* --stop M: 0 to 65535 */
    int32_t jobs;          /* --jobs N: 1 to MOST_JOBS */
    int bars;              /* --bars */
    int plain;             /* --plain: the listing as `shift` prints it */
    int as_book;           /* --as-book: the file is a book */
    int fields;            /* --fields: field by field, as bytes */
    int shift;             /* --shift: the picture of the shift */
};

/* The most threads that the plain engine is run in. */
enum { MOST_JOBS = 256 };

/* The commands; each gives the program's exit status. */
int command_listing(const struct request *request);
int command_figures(const struct request *request);
int command_run(const struct request *request);
int command_single(const struct request *request);
int command_compile(const struct request *request);
int command_show(const struct request *request);
int command_check(const struct request *request);
int command_draw(const struct request *request);
int command_plain(const struct request *request);
int command_sum(const struct request *request);
int command_compare(const struct request *request);

#endif
