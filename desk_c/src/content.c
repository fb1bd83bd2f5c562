/* The bytes of a plan or of a sheet, in memory. */
#include "content.h"

/* Where the first bytes of a file go, this many at most. */
static struct file_room room_of(struct content *content, size_t size)
{
    return (struct file_room){content->at, size, &content->length, &content->identity};
}

/* Reads a plan's file, or standard input for "-"; says what is wrong and answers false if it cannot. */
bool content_read_plan(struct content *plan, const char *path)
{
    return file_read_or_input(path, room_of(plan, PLAN_READ_MAX));
}

/* Reads a sheet's file; says what is wrong and answers false if it cannot. */
bool content_read_sheet(struct content *sheet, const char *path)
{
    return file_read(path, room_of(sheet, SHEET_READ_MAX));
}
