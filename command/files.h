/* Reading a file up to a limit, and writing one whole or not at all. */
#ifndef FILES_H
#define FILES_H

#include <stddef.h>
#include <stdint.h>

struct text {
    const char *name; /* as the user wrote it */
    uint8_t *bytes;   /* never null, so that it can be lent */
    size_t len;
};

/* Reads the file, or standard input for "-", to its end, but no more than one byte past the limit: a text over its limit is then seen to be so.
   Answers 0, or 2 after a message. */
int read_text(struct text *text, const char *name, size_t limit);

/* Writes a file aside and gives it its name when all is on disk, so that the name stands for the old file or the new one. What is not a regular
   file (a pipe, a device, "-" for standard output) is written in place. Answers 0, or 2 after a message. */
int write_whole(const char *name, const uint8_t *bytes, size_t len);

/* Whether two names stand for one file; "-" is none. */
int same_file(const char *one, const char *other);

/* Memory for so many cells of a size, at least one; ends the program with 2 where there is none. */
void *cells(size_t count, size_t size);

#endif
