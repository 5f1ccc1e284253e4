/* A file is written beside its place and then put there, so that whoever finds it finds all of it. */
#define _XOPEN_SOURCE 700
#include "whole_file.h"

#include <errno.h>
#include <fcntl.h>
#include <limits.h>
#include <stdio.h>
#include <stdlib.h>
#include <string.h>
#include <sys/stat.h>
#include <unistd.h>

#include "input.h"
#include "said.h"

enum { PATH_BYTES = PATH_MAX + 32 };

static int is_standard(const char *name)
{
    return name == NULL || strcmp(name, "-") == 0;
}

/* Whether there is something of the name that is no file of bytes: a device, a pipe, a folder. */
static int is_special(const char *name)
{
    struct stat status;
    return stat(name, &status) == 0 && !S_ISREG(status.st_mode);
}

static int is_folder(const char *name)
{
    struct stat status;
    return stat(name, &status) == 0 && S_ISDIR(status.st_mode);
}

/* The folder of a path, with the slash at its end: so many of its first bytes. */
static size_t folder_length(const char *path)
{
    const char *slash = strrchr(path, '/');
    return slash != NULL ? (size_t)(slash - path) + 1 : 0;
}

static int cannot(const char *name, int error)
{
    return misused("%s can't be written: %s", name, strerror(error));
}

int may_be_written(const char *name)
{
    char folder[PATH_BYTES];
    if (is_standard(name))
        return 1;
    if (holds_input(name))
        return 0;
    snprintf(folder, sizeof folder, "%.*s.", (int)(folder_length(name) < PATH_MAX ? folder_length(name) : PATH_MAX), name);
    if (is_folder(name))
        cannot(name, EISDIR);
    else if ((is_special(name) ? access(name, W_OK) : access(folder, W_OK | X_OK)) != 0)
        cannot(name, errno);
    else
        return 1;
    return 0;
}

/* Writes what is open, and closes it; false if not all could be written. */
static int write_and_close(FILE *out, const char *bytes, size_t length)
{
    int failed = fwrite(bytes, 1, length, out) != length;
    failed |= fflush(out) != 0;
    failed |= fsync(fileno(out)) != 0 && errno != EINVAL; /* a device has nothing to bring to a disk */
    failed |= fclose(out) != 0;
    return !failed;
}

static int write_special(const char *name, const char *bytes, size_t length)
{
    FILE *out = fopen(name, "wb");
    if (out == NULL)
        return cannot(name, errno);
    return write_and_close(out, bytes, length) ? ANSWERED : misused("%s can't be written to its end", name);
}

/* Opens a new file beside the path, of a name that no pattern such as part-* takes in. */
static FILE *open_beside(const char *path, char *beside, size_t size)
{
    size_t folder = folder_length(path);
    int file;
    if (snprintf(beside, size, "%.*s.%s.%ld", (int)folder, path, path + folder, (long)getpid()) >= (int)size) {
        errno = ENAMETOOLONG;
        return NULL;
    }
    file = open(beside, O_WRONLY | O_CREAT | O_EXCL, 0666);
    return file < 0 ? NULL : fdopen(file, "wb");
}

int write_whole(const char *name, const char *bytes, size_t length)
{
    char path[PATH_BYTES], beside[PATH_BYTES];
    FILE *out;
    if (is_standard(name)) {
        fwrite(bytes, 1, length, stdout);
        return end_output(stdout, NULL);
    }
    if (is_special(name))
        return write_special(name, bytes, length);
    if (strlen(name) >= PATH_MAX)
        return cannot(name, ENAMETOOLONG);
    if (realpath(name, path) == NULL) /* a link leads to the file; one that is not there has no other name */
        strcpy(path, name);
    out = open_beside(path, beside, sizeof beside);
    if (out == NULL)
        return cannot(name, errno);
    if (write_and_close(out, bytes, length) && rename(beside, path) == 0)
        return ANSWERED;
    remove(beside);
    return misused("%s can't be written to its end", name);
}
