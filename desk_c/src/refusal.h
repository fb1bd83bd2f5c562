/* A refusal in words. */
#ifndef REFUSAL_H
#define REFUSAL_H

#include "content.h"
#include "plan_glue.h"
#include "status.h"

#include <stdio.h>

/* A refusal and the bytes it is about; the sheet is null where none was given. */
struct refusal {
    uint64_t number;
    size_t place;
    const struct content *plan;
    const struct content *sheet;
};

/* Prints a refusing answer of the library: a line with number and place, and a line that says what is wrong. */
enum status refuse(FILE *out, uint64_t answer, const struct content *plan, const struct content *sheet);

/* Prints what is wrong with the plan, for the numbers 1 to 9, 17 and 18; answers false for another refusal. */
bool refusal_print_plan(FILE *out, const struct refusal *refusal);

/* Prints a team, its glued instruments and why they are not independent: a clause and a sentence. */
void refusal_print_glue(FILE *out, const struct content *plan, const struct glue_fault *fault);

/* Prints what is wrong with the buffer or the sheet, for the numbers 10 to 16; answers false for another refusal. */
bool refusal_print_sheet(FILE *out, const struct refusal *refusal);

#endif
