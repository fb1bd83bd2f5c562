/* Prints refusals in words without asking the library, so that each number and place can be tried. */
#include "refusal.h"

#include <stdlib.h>
#include <string.h>

/* Numbers and places beyond all that the library can answer. */
#define NUMBERS 20
#define PLACES 8300

/* Prints every number with every place. */
static void print_all(const struct content *plan, const struct content *sheet)
{
    for (uint64_t number = 0; number < NUMBERS; number++)
        for (uint64_t place = 0; place < PLACES; place++)
            refuse(stdout, number * POOL_REFUSAL + place, plan, sheet);
}

/* words NUMBER PLACE PLAN SHEET prints one refusal, words all all PLAN SHEET prints all; SHEET may be - for none. */
int main(int argc, char *argv[])
{
    static struct content plan, sheet;
    const struct content *given = NULL;

    if (argc != 5 || !content_read_plan(&plan, argv[3]))
        return 2;
    if (strcmp(argv[4], "-") != 0) {
        if (!content_read_sheet(&sheet, argv[4]))
            return 2;
        given = &sheet;
    }
    if (strcmp(argv[1], "all") == 0)
        print_all(&plan, given);
    else
        refuse(stdout, strtoull(argv[1], NULL, 10) * POOL_REFUSAL + strtoull(argv[2], NULL, 10), &plan, given);
    return fflush(stdout) == 0 ? 0 : 2;
}
