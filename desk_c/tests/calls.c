/* Calls pool_worth or pool_page with the bytes of files, and prints the answer. */
#include "content.h"
#include "status.h"

#include <inttypes.h>
#include <stdio.h>
#include <stdlib.h>
#include <string.h>

/* The bytes of a plan or a sheet; a null pointer if there are none. */
static const uint8_t *bytes_of(const struct content *content)
{
    return content->length == 0 ? NULL : content->at;
}

/* Prints the worth of a set to a team, or the refusal. */
static void print_worth(const struct content *plan, size_t team, uint64_t set)
{
    uint64_t answer = pool_worth(bytes_of(plan), plan->length, team, set);

    if (pool_refused(answer))
        printf("REFUSED %" PRIu64 " %zu\n", pool_number(answer), pool_place(answer));
    else
        printf("WORTH %" PRIu64 "\n", answer);
}

/* Prints where a team's page is, and its bytes in hexadecimal. */
static void print_page(const struct content *plan, const struct content *sheet, size_t team)
{
    uint64_t answer = pool_page(bytes_of(plan), plan->length, bytes_of(sheet), sheet->length, team);
    size_t offset = pool_page_offset(answer), length = pool_page_length(answer);

    printf("PAGE %zu %zu", offset, length);
    for (size_t i = 0; i < length && offset + i < sheet->length; i++)
        printf(" %02X", sheet->at[offset + i]);
    puts("");
}

/* calls worth PLAN TEAM SET prints the worth of a set, calls page PLAN SHEET TEAM a page and its place. */
int main(int argc, char *argv[])
{
    static struct content plan, sheet;

    if (argc != 5 || !content_read_plan(&plan, argv[2]))
        return 2;
    if (strcmp(argv[1], "worth") == 0)
        print_worth(&plan, strtoul(argv[3], NULL, 0), strtoull(argv[4], NULL, 0));
    else if (content_read_sheet(&sheet, argv[3]))
        print_page(&plan, &sheet, strtoul(argv[4], NULL, 0));
    return fflush(stdout) == 0 ? 0 : 2;
}
