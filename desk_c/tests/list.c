/* Calls pool_list with a buffer of a given length, and looks at the bytes in the buffer and around it. */
#include "content.h"

#include <inttypes.h>
#include <stdio.h>
#include <stdlib.h>

/* The longest buffer that is lent, and how many bytes around it are looked at on either side. */
#define LENT_MAX 1024
#define AROUND 256

/* The lent buffer, from the offset AROUND on, and the bytes around it. */
static uint8_t room[AROUND + LENT_MAX + AROUND];

/* The byte at an offset of the room before the call: neither null nor ASCII. */
static uint8_t byte_before(size_t offset)
{
    return (uint8_t)(0x80 + offset % 0x80);
}

/* The bytes of a plan or a sheet; a null pointer if there are none. */
static const uint8_t *bytes_of(const struct content *content)
{
    return content->length == 0 ? NULL : content->at;
}

/* Fills the room and calls pool_list with a buffer of this length; a null pointer if the length is 0. */
static uint64_t call_list(const struct content *plan, const struct content *sheet, size_t length)
{
    for (size_t offset = 0; offset < sizeof room; offset++)
        room[offset] = byte_before(offset);
    return pool_list(bytes_of(plan), plan->length, bytes_of(sheet), sheet->length, length == 0 ? NULL : room + AROUND,
                     length);
}

/* Prints an answer, and the bytes it says were written if the buffer has so many; answers how many these are. */
static size_t print_answer(uint64_t answer, size_t length)
{
    size_t written = answer <= length ? (size_t)answer : 0;

    if (pool_refused(answer))
        printf("REFUSED %" PRIu64 " %zu\n", pool_number(answer), pool_place(answer));
    else
        printf("LISTED %" PRIu64 "\n", answer);
    fwrite(room + AROUND, 1, written, stdout);
    return written;
}

/* Prints a line for each byte of the room that was changed, but for the written ones. */
static void print_changed(size_t written)
{
    for (size_t offset = 0; offset < sizeof room; offset++)
        if ((offset < AROUND || offset >= AROUND + written) && room[offset] != byte_before(offset))
            printf("CHANGED %zu\n", offset);
}

/* list PLAN SHEET LENGTH prints the answer, the listing, and which other bytes were changed. */
int main(int argc, char *argv[])
{
    static struct content plan, sheet;
    size_t length;

    if (argc != 4 || !content_read_plan(&plan, argv[1]) || !content_read_sheet(&sheet, argv[2]))
        return 2;
    length = strtoul(argv[3], NULL, 10);
    if (length > LENT_MAX)
        return 2;
    print_changed(print_answer(call_list(&plan, &sheet, length), length));
    return fflush(stdout) == 0 ? 0 : 2;
}
