/* Files that are written whole or not at all. */
#ifndef DESK_WHOLE_FILE_H
#define DESK_WHOLE_FILE_H

#include <stddef.h>

/* Whether a file can be written, as far as that can be seen before a long run: false, and said, if its folder is not there or may not be written to, or if it
 * holds what was read. A name that is null or `-` is standard output. */
int may_be_written(const char *name);

/* Writes it under a name of its own beside the file, and only then gives it the file's name; a device or a pipe is written to as it is. Gives the program's exit
 * status: ANSWERED, or MISUSED, and said, if not all could be written. */
int write_whole(const char *name, const char *bytes, size_t length);

#endif
