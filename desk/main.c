/* lampreysong: the planning desk. It compiles a case's text to bytes, hands the bytes to the proved calls, and says what they answer for a person. */
#include <stdio.h>
#include <string.h>

#include "input.h"
#include "options.h"
#include "refusal.h"
#include "said.h"

#define VERSION "1.5"
#define RULES "document 01, change requests 1, 2, 3, 4 and 10 of document 02"

/* The toolchain that proved the engine; who builds says it. */
#ifndef TOOLCHAIN
#define TOOLCHAIN "a toolchain that was not named"
#endif

static int version(void)
{
    printf("lampreysong %s\nrules: %s\nproved with %s\n", VERSION, RULES, TOOLCHAIN);
    return end_output(stdout, NULL);
}

static int refusals(void)
{
    for (unsigned number = LAMPREYSONG_OVERRUN; number <= LAMPREYSONG_WRONG_COUPLE; number++)
        if (is_refusal(number))
            printf("%2u  %s\n", number, refusal_meaning(number));
    puts("\n13 is retired: no call gives it, and it is not used again.");
    return end_output(stdout, NULL);
}

static int help(const struct command *command)
{
    if (command == NULL)
        print_help(stdout);
    else
        print_command_help(stdout, command);
    return end_output(stdout, NULL);
}

int main(int count, char **words)
{
    const struct command *command;
    struct request request;
    int help_asked;
    if (count < 2) {
        print_help(stderr);
        return MISUSED;
    }
    if (strcmp(words[1], "--version") == 0)
        return version();
    if (strcmp(words[1], "--refusals") == 0)
        return refusals();
    if (strcmp(words[1], "--help") == 0 || strcmp(words[1], "-h") == 0)
        return help(NULL);
    if (strcmp(words[1], "help") == 0)
        return help(words[2] != NULL ? find_command(words[2]) : NULL);
    command = find_command(words[1]);
    if (command == NULL)
        return no_command(words[1]);
    if (!read_words(command, words + 2, &request, &help_asked))
        return MISUSED;
    return help_asked ? help(command) : command->run(&request);
}
