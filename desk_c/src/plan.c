/* The commands of a plan: the way from one to the next, and what they say of its teams. */
#include "plan.h"

/* Tells whether a command byte opens a team. */
static bool opens_team(uint8_t byte)
{
    return byte == PLAN_CAPS || byte == PLAN_LOOPS || byte == PLAN_MOUNTS;
}

/* The first command of a plan. */
struct plan_place plan_first(void)
{
    return (struct plan_place){.number = 1};
}

/* Goes on to the next command; answers false, without moving, where there is no whole command. */
bool plan_next(const struct content *plan, struct plan_place *place)
{
    const struct plan_form *form;
    uint8_t byte;

    if (place->offset >= plan->length)
        return false;
    byte = plan->at[place->offset];
    form = plan_form(byte);
    if (form == NULL || plan->length - place->offset <= plan_size(form))
        return false;
    if (opens_team(byte)) {
        place->teams++;
        place->team = place->offset;
    }
    place->previous = place->offset;
    place->offset += 1 + plan_size(form);
    place->number++;
    return true;
}

/* Goes from the first command to the one at an offset, or as far as there are whole commands. */
struct plan_place plan_at(const struct content *plan, size_t offset)
{
    struct plan_place place = plan_first();

    while (place.offset < offset)
        if (!plan_next(plan, &place))
            break;
    return place;
}

/* The number of instruments an accepted plan states. */
size_t plan_instruments(const struct content *plan)
{
    return plan->length > 2 ? plan->at[2] : 0;
}

/* The number of teams in an accepted plan. */
size_t plan_teams(const struct content *plan)
{
    return plan_at(plan, plan->length).teams;
}

/* Finds the command that opens a team; null for a team not in the plan. */
static const uint8_t *find_team(const struct content *plan, size_t team)
{
    struct plan_place place = plan_first();

    while (place.teams <= team)
        if (!plan_next(plan, &place))
            return NULL;
    return plan->at + place.team;
}

/* The command byte that opens a team of an accepted plan; 0 for a team not in the plan. */
uint8_t plan_kind(const struct content *plan, size_t team)
{
    const uint8_t *opening = find_team(plan, team);

    return opening == NULL ? 0 : opening[0];
}

/* The channels of a team of an accepted plan; 0 for a team not in the plan. */
size_t plan_channels(const struct content *plan, size_t team)
{
    const uint8_t *opening = find_team(plan, team);

    return opening == NULL ? 0 : opening[1];
}

/* Tells whether a team of an accepted plan is present: its channels are above 0. A team not in the plan is not. */
bool plan_is_present(const struct content *plan, size_t team)
{
    return plan_channels(plan, team) > 0;
}

/* The number of teams present in an accepted plan. */
size_t plan_present(const struct content *plan)
{
    size_t count = 0;

    for (size_t team = 0; team < plan_teams(plan); team++)
        if (plan_is_present(plan, team))
            count++;
    return count;
}
