/* The commands of a plan: the way from one to the next, and what they say of its teams. */
#ifndef PLAN_H
#define PLAN_H

#include "content.h"
#include "plan_form.h"

/* A command of a plan, and the team that is open there. */
struct plan_place {
    size_t offset;   /* of this command */
    size_t number;   /* of this command, counted from 1 */
    size_t previous; /* offset of the command before it */
    size_t teams;    /* teams opened before it */
    size_t team;     /* offset of the command that opened the last of them */
};

/* The first command of a plan. */
struct plan_place plan_first(void);

/* Goes on to the next command; answers false, without moving, where there is no whole command. */
bool plan_next(const struct content *plan, struct plan_place *place);

/* Goes from the first command to the one at an offset, or as far as there are whole commands. */
struct plan_place plan_at(const struct content *plan, size_t offset);

/* The number of instruments an accepted plan states. */
size_t plan_instruments(const struct content *plan);

/* The number of teams in an accepted plan. */
size_t plan_teams(const struct content *plan);

/* The command byte that opens a team of an accepted plan; 0 for a team not in the plan. */
uint8_t plan_kind(const struct content *plan, size_t team);

/* The channels of a team of an accepted plan; 0 for a team not in the plan. */
size_t plan_channels(const struct content *plan, size_t team);

/* Tells whether a team of an accepted plan is present: its channels are above 0. A team not in the plan is not. */
bool plan_is_present(const struct content *plan, size_t team);

/* The number of teams present in an accepted plan. */
size_t plan_present(const struct content *plan);

#endif
