/* Words of the command line, judged as strictly as files. */
#include "options.h"

#include <stddef.h>
#include <string.h>

#include "numbers.h"
#include "said.h"
#include "text_names.h"

static const struct command commands[] = {
    {"check", "say whether a case is sound, and what it holds",
     "It judges the files as every run does, says how much of its room the run needs, and which trains are held up\n"
     "by others even where each has its least delay: then the plan stands in its own way. It also names tracks that are\n"
     "coupled to no effect, because no train drives there or back.",
     TAKES_BOOK | TAKES_NAMES, command_check},
    {"listing", "print the minutes in which each train can arrive, with their weights",
     "All choices of delays together weigh 100 to the power of the number of trains. The weight of a minute\n"
     "is the exact sum over the choices that bring the train to its last station in that minute.",
     TAKES_BOOK | TAKES_NAMES | TAKES_BARS | TAKES_PLAIN, command_listing},
    {"figures", "print each train's punctuality: on time, late, not arrived, mean lateness",
     "Shares are of 100 choices by weight. The columns 50, 80 and 95 have the first minute by which at least\n"
     "as many of 100 choices have arrived; - means not by the last minute.",
     TAKES_BOOK | TAKES_NAMES | TAKES_TRAIN | TAKES_LIMIT, command_figures},
    {"run", "print the list of entries after a minute, and what has arrived by then",
     "Without --stop it runs to the last minute. Each row is a train that waits or stands somewhere, or a place that\n"
     "it still blocks, in the choices that are named at the row's end; trains that are not named may have any delay.\n"
     "A place that is blocked until minute 17 is free again in minute 17.",
     TAKES_BOOK | TAKES_NAMES | TAKES_STOP, command_run},
    {"single", "run one choice of delays, and print when each train arrives",
     "The choice is one delay for each train, in the order of the case: --delays by minutes, or --choice by index.",
     TAKES_BOOK | TAKES_NAMES | TAKES_TRAIN | TAKES_DELAYS | TAKES_CHOICE, command_single},
    {"draw", "draw a picture (SVG) of each train's arrivals, or of the shift",
     "Without --shift it draws each train's arrivals: the plan, the weight of each minute, what has not arrived, and\n"
     "the summed curve. With --shift it draws the planned paths over stations and tracks by minute, and how many\n"
     "trains stand where, on average of all choices. Tracks that are coupled are drawn as one place.",
     TAKES_BOOK | TAKES_NAMES | TAKES_SHIFT | TAKES_OUTPUT, command_draw},
    {"compile", "make the bytes of a case or a book from its text",
     "A text that can't be compiled is refused with line, column and what was expected there. Bytes that the reader\n"
     "refuses are not written.",
     TAKES_BOOK | TAKES_AS_BOOK | TAKES_OUTPUT, command_compile},
    {"show", "print a case or a book as text", "With --fields it prints the bytes field by field, of a damaged file too.",
     TAKES_BOOK | TAKES_NAMES | TAKES_AS_BOOK | TAKES_FIELDS | TAKES_OUTPUT, command_show},
    {"plain", "run every choice by itself, and print the weights by numbers",
     "This is the plain engine: slow, but it needs no room. It prints how many choices were run, and then the listing as\n"
     "`listing --plain` has it; with --stop, what has arrived by that minute. On a terminal it shows how far it is. With --part\n"
     "it runs a part of the choices, on this machine or another, and writes what they come to for `lampreysong sum`.",
     TAKES_BOOK | TAKES_STOP | TAKES_JOBS | TAKES_PART | TAKES_OUTPUT, command_plain},
    {"sum", "sum parts that were run by plain --part, and print what plain prints",
     "The files are the parts of one case, with one book and one stop minute, in any order. Each choice must be in one of\n"
     "them and in no other; if not, or if a file is damaged, nothing is summed, and it is said what to mend.",
     TAKES_FILES, command_sum},
    {"compare", "run the joint run and the plain engine, and say whether their weights agree",
     "Exit status: 0 where they agree; 3 where they differ, and each weight that differs is printed; 4 where the joint run\n"
     "has no room, so that there is nothing to compare, and what the plain engine answers is printed.",
     TAKES_BOOK | TAKES_NAMES | TAKES_STOP | TAKES_JOBS, command_compare},
};

enum kind { FLAG, NUMBER, WORDS };

enum { OPTION_BYTES = 12 };

struct known_option {
    char option[OPTION_BYTES];
    const char *value; /* what its value is called */
    const char *help;
    enum option bit;
    enum kind kind;
    size_t member; /* of struct request */
    int least, most; /* of a number */
};

#define MEMBER(name) offsetof(struct request, name)
static const struct known_option options[] = {
    {"--book", "FILE", "the book: delay tables for types that have none in the case; text or bytes", TAKES_BOOK, WORDS, MEMBER(book_name), 0, 0},
    {"--names", "TEXT", "the text that the case was compiled from, for the names of a case given as bytes", TAKES_NAMES, WORDS, MEMBER(names), 0, 0},
    {"--output", "FILE", "write to this file, not to standard output; -o is short for it", TAKES_OUTPUT, WORDS, MEMBER(output), 0, 0},
    {"--train", "TRAIN", "only this train, by its name or number", TAKES_TRAIN, WORDS, MEMBER(train), 0, 0},
    {"--delays", "LIST", "a delay for each train in minutes, as +3,+0", TAKES_DELAYS, WORDS, MEMBER(delays), 0, 0},
    {"--choice", "LIST", "an index for each train, counted from 0 in its table, as 1,0", TAKES_CHOICE, WORDS, MEMBER(choice), 0, 0},
    {"--limit", "MINUTES", "how many minutes after plan still count as on time, 0 to 65535; 0 if left out", TAKES_LIMIT, NUMBER, MEMBER(limit), 0, 65535},
    {"--stop", "MINUTE", "the minute after which the run stops, 0 to 65535; the last minute if left out", TAKES_STOP, NUMBER, MEMBER(stop), 0, 65535},
    {"--jobs", "N", "how many threads run choices, 1 to 256; one for each core that the process may use if left out", TAKES_JOBS, NUMBER, MEMBER(jobs), 1, MOST_JOBS},
    {"--part", "I/N", "run only the I-th of N nearly equal parts of the choices, and write it for `lampreysong sum`", TAKES_PART, WORDS, MEMBER(part), 0, 0},
    {"--bars", NULL, "draw a bar for each weight", TAKES_BARS, FLAG, MEMBER(bars), 0, 0},
    {"--plain", NULL, "print exactly what the program `shift` prints, by numbers", TAKES_PLAIN, FLAG, MEMBER(plain), 0, 0},
    {"--as-book", NULL, "the file is a book, not a case", TAKES_AS_BOOK, FLAG, MEMBER(as_book), 0, 0},
    {"--fields", NULL, "print each field's place, tag, length and bytes", TAKES_FIELDS, FLAG, MEMBER(fields), 0, 0},
    {"--shift", NULL, "draw the shift: planned paths, and how many trains stand where", TAKES_SHIFT, FLAG, MEMBER(shift), 0, 0},
};
#undef MEMBER

#define COUNT(list) (sizeof(list) / sizeof *(list))

const struct command *find_command(const char *name)
{
    for (size_t i = 0; i < COUNT(commands); i++)
        if (strcmp(commands[i].name, name) == 0)
            return &commands[i];
    return NULL;
}

/* Of names that stand in structs of one size, the one that a mistyped word is near to, said as a question; nothing if none is. */
struct question {
    char text[40];
};

static struct question is_it(const struct names *names, const char *asked)
{
    const struct word word = {PLAIN, asked, strlen(asked), 0, 0};
    const char *nearest = nearest_name(names, &word);
    struct question question = {""};
    if (nearest != NULL)
        snprintf(question.text, sizeof question.text, "; is it %s?", nearest);
    return question;
}

int no_command(const char *name)
{
    const struct names names = {commands[0].name, sizeof *commands, COUNT(commands)};
    const struct question question = is_it(&names, name);
    return misused("there is no command %s%s `lampreysong --help` lists the commands", name, question.text[0] != '\0' ? question.text : ";");
}

/* ---- help */

void print_help(FILE *out)
{
    fputs("Use: lampreysong COMMAND FILE [OPTION..]\n\n"
          "Carries all combinations of delays through a shift of a mine railway together, and says when each train can\n"
          "arrive. FILE is a case: text (the manual, lampreysong.1, shows how to write one) or bytes; - is standard input.\n\nCommands:\n",
          out);
    for (size_t i = 0; i < COUNT(commands); i++)
        fprintf(out, "  %-8s %s\n", commands[i].name, commands[i].does);
    fputs("\n`lampreysong COMMAND --help` tells of a command's options, `lampreysong --refusals` what each refusal means,\n"
          "`lampreysong --version` which program this is and what proved it.\n"
          "Exit status: 0 for an answer, 1 for a refused case, 2 for misuse or a file that can't be read or written; `compare` has\n"
          "two more, 3 where the engines differ and 4 where the joint run has no room.\n",
          out);
}

static void print_option(FILE *out, const char *option, const char *value, const char *help)
{
    enum { HELP_COLUMN = 19 };
    int columns = fprintf(out, "  %s%s%s", option, value != NULL ? " " : "", value != NULL ? value : "");
    fprintf(out, "%*s%s\n", columns > 0 && columns < HELP_COLUMN ? HELP_COLUMN - columns : 1, "", help);
}

void print_command_help(FILE *out, const struct command *command)
{
    fprintf(out, "Use: lampreysong %s FILE%s [OPTION..]\n\nTo %s.\n%s\n\nOptions:\n", command->name, command->takes & TAKES_FILES ? ".." : "", command->does,
            command->more);
    for (size_t i = 0; i < COUNT(options); i++)
        if (command->takes & options[i].bit)
            print_option(out, options[i].option, options[i].value, options[i].help);
    print_option(out, "--help", NULL, "print this");
}

/* ---- words */

static const struct known_option *find_option(const struct command *command, const char *option, size_t length)
{
    if (length == 2 && strncmp(option, "-o", 2) == 0)
        return find_option(command, "--output", 8);
    for (size_t i = 0; i < COUNT(options); i++)
        if ((command->takes & options[i].bit) && strlen(options[i].option) == length && strncmp(options[i].option, option, length) == 0)
            return &options[i];
    return NULL;
}

static void *member_of(struct request *request, const struct known_option *word)
{
    return (char *)request + word->member;
}

static int store(struct request *request, const struct known_option *word, const char *value)
{
    unsigned long number;
    if (word->kind == WORDS) {
        *(const char **)member_of(request, word) = value;
        return 1;
    }
    if (!read_number(value, (unsigned long)word->most, &number) || number < (unsigned long)word->least) {
        misused("%s takes a whole number of %d to %d, in digits and without leading zeros; `%s` is none", word->option, word->least, word->most, value);
        return 0;
    }
    *(int32_t *)member_of(request, word) = (int32_t)number;
    return 1;
}

/* Says that the command has no such option, and which of its options it is near to. */
static void no_option(const struct command *command, const char *option, size_t length)
{
    const struct word asked = {PLAIN, option, length, 0, 0};
    const struct names names = {options[0].option, sizeof *options, COUNT(options)};
    const char *nearest = nearest_name(&names, &asked);
    const int is_its = nearest != NULL && find_option(command, nearest, strlen(nearest)) != NULL;
    misused("%s has no option %.*s;%s%s%s `lampreysong %s --help` lists its options", command->name, (int)length, option, is_its ? " is it " : "",
            is_its ? nearest : "", is_its ? "?" : "", command->name);
}

/* An option at the first word, and its value after = or in the next word. Gives the last word that it took; null, and said, if it is misused. */
static char **read_option(const struct command *command, char **words, unsigned *given, struct request *request)
{
    const char *equals = strchr(*words, '=');
    size_t length = equals != NULL ? (size_t)(equals - *words) : strlen(*words);
    const struct known_option *word = find_option(command, *words, length);
    if (word == NULL)
        no_option(command, *words, length);
    else if (*given & word->bit)
        misused("%s is given twice", word->option);
    else if (word->kind == FLAG && equals != NULL)
        misused("%s takes no value", word->option);
    else if (word->kind != FLAG && equals == NULL && words[1] == NULL)
        misused("%s needs a value, %s: %s", word->option, word->value, word->help);
    else {
        *given |= word->bit;
        if (word->kind == FLAG)
            *(int *)member_of(request, word) = 1;
        else if (!store(request, word, equals != NULL ? equals + 1 : *++words))
            return NULL;
        return words;
    }
    return NULL;
}

/* Takes a word for a file; those of a command that takes several are moved to the front of the words. */
static int take_file(const struct command *command, struct request *request, char *word)
{
    if (request->file_count > 0 && !(command->takes & TAKES_FILES)) {
        misused("one file is expected, and %s is a second one; a book is given by --book FILE", word);
        return 0;
    }
    request->files[request->file_count++] = word;
    request->case_name = request->files[0];
    return 1;
}

int read_words(const struct command *command, char **words, struct request *request, int *help)
{
    unsigned given = 0;
    int files_only = 0;
    memset(request, 0, sizeof *request);
    request->limit = request->stop = -1;
    request->files = words;
    *help = 0;
    for (; *words != NULL; words++) {
        if (!files_only && (strcmp(*words, "--help") == 0 || strcmp(*words, "-h") == 0))
            return *help = 1;
        if (!files_only && strcmp(*words, "--") == 0)
            files_only = 1;
        else if (files_only || **words != '-' || (*words)[1] == '\0') {
            if (!take_file(command, request, *words))
                return 0;
        } else if ((words = read_option(command, words, &given, request)) == NULL)
            return 0;
    }
    if (request->case_name == NULL)
        misused("%s needs a file; `lampreysong %s --help` tells how it is used", command->name, command->name);
    return request->case_name != NULL;
}
