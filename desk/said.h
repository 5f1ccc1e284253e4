/* What the program says on standard error, and how it ends. */
#ifndef DESK_SAID_H
#define DESK_SAID_H

/* Exit status: an answer; a refusal, by 01, of a text that can't be compiled or of parts that can't be summed; misuse, or a file that can't be read or written.
 * Of `compare` alone: the engines differ; and the joint run has no room, so that there is nothing to compare. */
enum { ANSWERED = 0, REFUSED = 1, MISUSED = 2, DIFFERENT = 3, NOT_COMPARED = 4 };

/* Prints `lampreysong: ` and the message with a line feed, and gives MISUSED. */
int misused(const char *format, ...);

#endif
