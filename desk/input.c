/* Reading and writing files, with every error said. */
#include "input.h"

#include <errno.h>
#include <string.h>

#include "said.h"

static int is_standard(const char *name)
{
    return name == NULL || strcmp(name, "-") == 0;
}

/* What was read: a case, a book and a text with names at the most, and the case twice. */
enum { MOST_READ = 4 };
static struct text was_read[MOST_READ];
static unsigned times_read;

int read_up_to(const char *name, size_t most, char *bytes, size_t *length, int *longer)
{
    FILE *file = is_standard(name) ? stdin : fopen(name, "rb");
    int failed, error;
    if (file == NULL) {
        misused("%s can't be opened: %s", name, strerror(errno));
        return 0;
    }
    errno = 0;
    *length = fread(bytes, 1, most, file);
    *longer = *length == most && getc(file) != EOF;
    error = errno;
    failed = ferror(file);
    if (file != stdin)
        fclose(file);
    if (failed)
        misused("%s can't be read to its end: %s", is_standard(name) ? "standard input" : name, strerror(error));
    return !failed;
}

int read_input(const char *name, struct input *input)
{
    if (!read_up_to(name, MOST_TEXT, input->text.at, &input->text.length, &input->longer))
        return 0;
    if (times_read < MOST_READ)
        was_read[times_read++] = input->text;
    return 1;
}

int is_text(const struct input *input)
{
    for (size_t i = 0; i < input->text.length; i++) {
        unsigned char byte = (unsigned char)input->text.at[i];
        if ((byte < 32 && byte != '\t' && byte != '\n' && byte != '\r') || byte == 127)
            return 0;
    }
    return input->text.length > 0;
}

int holds_input(const char *name)
{
    static struct text there;
    FILE *file = fopen(name, "r+b");
    int same = 0;
    there.length = 0;
    if (file != NULL && fseek(file, 0, SEEK_END) == 0 && fseek(file, 0, SEEK_SET) == 0)
        there.length = fread(there.at, 1, MOST_TEXT, file);
    if (file != NULL)
        fclose(file);
    for (unsigned i = 0; i < times_read && there.length > 0; i++)
        same |= there.length == was_read[i].length && memcmp(there.at, was_read[i].at, there.length) == 0;
    if (same)
        misused("%s holds what was read, and is not written over; give another file to --output", name);
    return same;
}

FILE *begin_output(const char *name)
{
    FILE *out;
    if (!is_standard(name) && holds_input(name))
        return NULL;
    out = is_standard(name) ? stdout : fopen(name, "wb");
    if (out == NULL)
        misused("%s can't be written: %s", name, strerror(errno));
    return out;
}

int end_output(FILE *out, const char *name)
{
    int failed = ferror(out) | fflush(out);
    if (out != stdout)
        failed |= fclose(out);
    if (failed)
        return misused("%s can't be written to its end", is_standard(name) ? "standard output" : name);
    return ANSWERED;
}
