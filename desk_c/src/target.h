/* The file that bytes are written to: replaced whole or not at all. */
#ifndef TARGET_H
#define TARGET_H

#include "content.h"

#include <stdbool.h>
#include <sys/stat.h>

/* A place in a directory, and the regular file that is there now, if any. */
struct target {
    const char *path;
    const char *name;
    int directory;
    bool exists;
    struct stat present;
};

/*
 * Opens the directory and looks at the present file; says what is wrong and answers false if it will not do.
 * A message about an empty path names what was to be written.
 */
bool target_open(struct target *target, const char *path, const char *what);

/* Tells whether the present file is this one. */
bool target_is(const struct target *target, const struct file_identity *file);

/* Puts a new file in the present one's place; says what is wrong and answers false if it cannot. */
bool target_replace(const struct target *target, const struct content *content);

/* Closes the directory. */
void target_close(const struct target *target);

#endif
