/* The loan days of a plan: those of an instrument on the shelf, and those of a team. */
#include "plan_days.h"

#include "plan.h"

/* The days where the plan names none. */
static const struct plan_days all_days = {0, 65535};

/* The days that the bytes of a from and a to name. */
struct plan_days plan_days(const uint8_t *bytes)
{
    return (struct plan_days){(unsigned)plan_value(bytes, 2), (unsigned)plan_value(bytes + 2, 2)};
}

/* The shelf days of an instrument; all days if it has no SHELF. */
struct plan_days plan_shelf_days(const struct content *plan, size_t instrument)
{
    struct plan_place place = plan_first();

    while (plan_next(plan, &place)) {
        const uint8_t *command = plan->at + place.previous;

        if (command[0] == PLAN_SHELF && command[1] == instrument)
            return plan_days(command + 2);
    }
    return all_days;
}

/* The days of a team; all days if it has no DAYS. */
struct plan_days plan_team_days(const struct content *plan, size_t team)
{
    struct plan_place place = plan_first();

    while (plan_next(plan, &place)) {
        const uint8_t *command = plan->at + place.previous;

        if (command[0] == PLAN_DAYS && place.teams == team + 1)
            return plan_days(command + 1);
    }
    return all_days;
}

/* Tells whether a team's days lie within the shelf days of an instrument. */
bool plan_is_usable(const struct content *plan, size_t team, size_t instrument)
{
    struct plan_days days = plan_team_days(plan, team);
    struct plan_days shelf = plan_shelf_days(plan, instrument);

    return shelf.from <= days.from && days.to <= shelf.to;
}

/* Prints that a team's days do not lie within the shelf days of an instrument. */
void plan_print_off_shelf(FILE *out, const struct content *plan, size_t team, size_t instrument)
{
    struct plan_days days = plan_team_days(plan, team);
    struct plan_days shelf = plan_shelf_days(plan, instrument);

    fprintf(out, "The team's days, %u to %u, do not lie within the shelf days of instrument %zu, %u to %u.", days.from,
            days.to, instrument, shelf.from, shelf.to);
}
