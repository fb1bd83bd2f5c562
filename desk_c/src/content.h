/* The bytes of a plan or of a sheet, in memory. */
#ifndef CONTENT_H
#define CONTENT_H

#include "file.h"
#include "pool.h"

#include <stdbool.h>

/*
 * How much of a file is read. Commands that fit a plan have POOL_PLAN_MAX bytes at most, so a longer file
 * has its first faulty command within these bytes, and Read's answer for them is its answer for the whole file.
 * A sheet of one byte more than the longest is as wrong as any longer one.
 */
#define PLAN_READ_MAX 8192
#define SHEET_READ_MAX (POOL_SHEET_MAX + 1)

/* Bytes, their count, and for a file which file it is. */
struct content {
    uint8_t at[PLAN_READ_MAX];
    size_t length;
    struct file_identity identity;
};

/* Reads a plan's file, or standard input for "-"; says what is wrong and answers false if it cannot. */
bool content_read_plan(struct content *plan, const char *path);

/* Reads a sheet's file; says what is wrong and answers false if it cannot. */
bool content_read_sheet(struct content *sheet, const char *path);

#endif
