/* The loan days of a plan: those of an instrument on the shelf, and those of a team. */
#ifndef PLAN_DAYS_H
#define PLAN_DAYS_H

#include "content.h"

#include <stdio.h>

/* The size of a from and a to, in bytes. */
#define PLAN_DAYS_SIZE 4

/* Days counted from the pool's first, day 0: from is included, to is not. */
struct plan_days {
    unsigned from;
    unsigned to;
};

/* The days that the bytes of a from and a to name. */
struct plan_days plan_days(const uint8_t *bytes);

/* The shelf days of an instrument; all days if it has no SHELF. */
struct plan_days plan_shelf_days(const struct content *plan, size_t instrument);

/* The days of a team; all days if it has no DAYS. */
struct plan_days plan_team_days(const struct content *plan, size_t team);

/* Tells whether a team's days lie within the shelf days of an instrument. */
bool plan_is_usable(const struct content *plan, size_t team, size_t instrument);

/* Prints that a team's days do not lie within the shelf days of an instrument. */
void plan_print_off_shelf(FILE *out, const struct content *plan, size_t team, size_t instrument);

#endif
