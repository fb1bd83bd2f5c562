/* A refusal in words: its two lines. */
#include "refusal.h"

#include <inttypes.h>

/* Prints a refusing answer of the library: a line with number and place, and a line that says what is wrong. */
enum status refuse(FILE *out, uint64_t answer, const struct content *plan, const struct content *sheet)
{
    struct refusal refusal = {pool_number(answer), pool_place(answer), plan, sheet};

    fprintf(out, "REFUSED %" PRIu64 " %zu\n", refusal.number, refusal.place);
    if (!refusal_print_plan(out, &refusal) && !refusal_print_sheet(out, &refusal))
        fputs("This program has no words for that number and place.", out);
    fputs("\n", out);
    return STATUS_REFUSED;
}
