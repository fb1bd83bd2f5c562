/* What a command writes to a file, and the source that it is made of. */
#ifndef OUTPUT_H
#define OUTPUT_H

#include "content.h"
#include "status.h"

/* Bytes and their name in messages; the source's file, and what is said where that would be replaced. */
struct output {
    const struct content *content;
    const char *name;
    const struct file_identity *source;
    const char *own;
};

/* Writes the bytes to a file, whole or not at all; the file must not be the source's own. */
enum status output_write(const struct output *output, const char *path);

#endif
