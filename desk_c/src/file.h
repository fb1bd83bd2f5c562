/* The first bytes of a file, and which file it is. */
#ifndef FILE_H
#define FILE_H

#include <stdbool.h>
#include <stddef.h>
#include <stdint.h>
#include <sys/types.h>

/* Which file it is. */
struct file_identity {
    dev_t device;
    ino_t inode;
};

/* Where a file's first bytes go, how many there is room for, and where their count and the file's identity go. */
struct file_room {
    uint8_t *at;
    size_t size;
    size_t *length;
    struct file_identity *identity;
};

/* The name of a file in messages: its path, or standard input for "-". */
const char *file_name(const char *path);

/* Reads a file; says what is wrong and answers false if it cannot. */
bool file_read(const char *path, struct file_room room);

/* Reads a file, or standard input for "-"; says what is wrong and answers false if it cannot. */
bool file_read_or_input(const char *path, struct file_room room);

#endif
