/* Where the commands of a sheet stand, and what an accepted sheet says. */
#include "sheet.h"

#include "plan.h"

/* The shape of the sheets of an accepted plan. */
struct sheet_shape sheet_shape(const struct content *plan)
{
    return (struct sheet_shape){plan_instruments(plan), plan_teams(plan)};
}

/* The length of a sheet of this shape. */
size_t sheet_length(struct sheet_shape shape)
{
    return sheet_share(shape, shape.teams) + 1;
}

/* The offset of an instrument's GIVE. */
size_t sheet_give(size_t instrument)
{
    return SHEET_HEAD_SIZE + SHEET_GIVE_SIZE * instrument;
}

/* The offset of BOUND. */
size_t sheet_bound(struct sheet_shape shape)
{
    return sheet_give(shape.instruments);
}

/* The offset of a team's SHARE; for the number after the last team's, that of END. */
size_t sheet_share(struct sheet_shape shape, size_t team)
{
    return sheet_bound(shape) + SHEET_BOUND_SIZE + (SHEET_SHARE_SIZE + SHEET_PART_SIZE * shape.instruments) * team;
}

/* The total that HEAD states. */
unsigned sheet_total(const struct content *sheet)
{
    return sheet->at[3];
}

/* The team that gets an instrument, or SHEET_POOL. */
uint8_t sheet_owner(const struct content *sheet, size_t instrument)
{
    return sheet->at[sheet_give(instrument) + 2];
}

/* How many instruments a team holds; with SHEET_POOL, how many are in the pool. */
size_t sheet_count(const struct content *sheet, struct sheet_shape shape, size_t team)
{
    size_t count = 0;

    for (size_t instrument = 0; instrument < shape.instruments; instrument++)
        if (sheet_owner(sheet, instrument) == team)
            count++;
    return count;
}

/* The share that a team's SHARE states. */
unsigned sheet_share_stated(const struct content *sheet, struct sheet_shape shape, size_t team)
{
    return sheet->at[sheet_share(shape, team) + 2];
}

/* Prints the instruments a team holds, rising, a space before each. */
void sheet_print_held(FILE *out, const struct content *sheet, struct sheet_shape shape, size_t team)
{
    for (size_t instrument = 0; instrument < shape.instruments; instrument++)
        if (sheet_owner(sheet, instrument) == team)
            fprintf(out, " %zu", instrument);
}
