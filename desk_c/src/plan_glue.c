/* The glued instruments of a plan: the team that has one, and why those of a team are not independent. */
#include "plan_glue.h"

#include "plan.h"
#include "plan_days.h"

#include <string.h>

/* Classes and mounts are below these, and a joint's byte in a refused plan is below the last. */
#define CLASSES 16
#define MOUNTS 32
#define JOINT_BYTES 256

/* The glued instruments of a team, rising. */
struct glued {
    const struct content *plan;
    size_t team;
    size_t count;
    size_t instruments[POOL_INSTRUMENTS_MAX];
    const uint8_t *namings[POOL_INSTRUMENTS_MAX]; /* the PUT, SPAN or FIT of each in the team; null if it has none */
};

/* Mounts, the FIT of the instrument on each, and which were tried for the present instrument. */
struct mounts {
    const uint8_t *fits[MOUNTS];
    bool tried[MOUNTS];
};

/* The team that an instrument is glued to; GLUE_NONE if to none. */
size_t plan_glue_team(const struct content *plan, size_t instrument)
{
    struct plan_place place = plan_first();

    while (plan_next(plan, &place)) {
        const uint8_t *command = plan->at + place.previous;

        if (command[0] == PLAN_GLUE && command[1] == instrument && place.teams > 0)
            return place.teams - 1;
    }
    return GLUE_NONE;
}

/* The number of instruments glued to a team. */
size_t plan_glue_count(const struct content *plan, size_t team)
{
    size_t count = 0;

    for (size_t instrument = 0; instrument < plan_instruments(plan); instrument++)
        if (plan_glue_team(plan, instrument) == team)
            count++;
    return count;
}

/* Prints the instruments glued to a team, rising, a space before each. */
void plan_print_glued(FILE *out, const struct content *plan, size_t team)
{
    for (size_t instrument = 0; instrument < plan_instruments(plan); instrument++)
        if (plan_glue_team(plan, instrument) == team)
            fprintf(out, " %zu", instrument);
}

/* The command byte that names an instrument in a team of a kind: PUT, SPAN or FIT. */
uint8_t plan_naming(uint8_t kind)
{
    if (kind == PLAN_CAPS)
        return PLAN_PUT;
    return kind == PLAN_LOOPS ? PLAN_SPAN : PLAN_FIT;
}

/* Finds the command of a team with this byte and this first operand; null if it has none. */
static const uint8_t *find_command(const struct content *plan, size_t team, uint8_t byte, size_t operand)
{
    struct plan_place place = plan_first();

    while (plan_next(plan, &place)) {
        const uint8_t *command = plan->at + place.previous;

        if (place.teams == team + 1 && command[0] == byte && command[1] == operand)
            return command;
    }
    return NULL;
}

/* Finds the glued instruments of a team, and the command that names each. */
static struct glued find_glued(const struct content *plan, size_t team)
{
    struct glued glued = {.plan = plan, .team = team};
    uint8_t naming = plan_naming(plan_kind(plan, team));

    for (size_t instrument = 0; instrument < POOL_INSTRUMENTS_MAX; instrument++)
        if (plan_glue_team(plan, instrument) == team) {
            glued.instruments[glued.count] = instrument;
            glued.namings[glued.count++] = find_command(plan, team, naming, instrument);
        }
    return glued;
}

/* A fault about an instrument. */
static struct glue_fault instrument_fault(const struct glued *glued, enum glue_cause cause, size_t instrument)
{
    return (struct glue_fault){.team = glued->team, .cause = cause, .which = instrument};
}

/* The answer where no fault is found. */
static struct glue_fault no_fault(const struct glued *glued)
{
    return (struct glue_fault){.team = glued->team, .cause = GLUE_STANDS};
}

/* Looks for the lowest instrument that the team does not name. */
static struct glue_fault find_unnamed(const struct glued *glued)
{
    for (size_t i = 0; i < glued->count; i++)
        if (glued->namings[i] == NULL)
            return instrument_fault(glued, GLUE_UNNAMED, glued->instruments[i]);
    return no_fault(glued);
}

/* Looks for the lowest instrument whose shelf days do not hold the team's days. */
static struct glue_fault find_off_shelf(const struct glued *glued)
{
    for (size_t i = 0; i < glued->count; i++)
        if (!plan_is_usable(glued->plan, glued->team, glued->instruments[i]))
            return instrument_fault(glued, GLUE_OFF_SHELF, glued->instruments[i]);
    return no_fault(glued);
}

/* Compares the number of instruments with the team's channels. */
static struct glue_fault find_beyond_channels(const struct glued *glued)
{
    size_t channels = plan_channels(glued->plan, glued->team);

    if (glued->count <= channels)
        return no_fault(glued);
    return (struct glue_fault){.team = glued->team, .cause = GLUE_CHANNELS, .count = glued->count, .limit = channels};
}

/* The number of glued instruments in a class. */
static size_t count_class(const struct glued *glued, size_t class)
{
    size_t count = 0;

    for (size_t i = 0; i < glued->count; i++)
        if (glued->namings[i][2] == class)
            count++;
    return count;
}

/* Looks for the lowest class with more instruments than its cap. */
static struct glue_fault find_beyond_cap(const struct glued *glued)
{
    for (size_t class = 0; class < CLASSES; class++) {
        const uint8_t *command = find_command(glued->plan, glued->team, PLAN_CLASS, class);
        size_t cap = command == NULL ? 0 : command[2];
        size_t count = count_class(glued, class);

        if (count > cap)
            return (struct glue_fault){
                .team = glued->team, .cause = GLUE_CLASS, .which = class, .count = count, .limit = cap};
    }
    return no_fault(glued);
}

/* Makes a group of each joint; a joint may be any byte. */
static void start_groups(uint8_t groups[JOINT_BYTES])
{
    for (size_t joint = 0; joint < JOINT_BYTES; joint++)
        groups[joint] = (uint8_t)joint;
}

/* Makes one group of the groups of two joints. */
static void join_groups(uint8_t groups[JOINT_BYTES], uint8_t first, uint8_t second)
{
    uint8_t kept = groups[first], gone = groups[second];

    for (size_t joint = 0; joint < JOINT_BYTES; joint++)
        if (groups[joint] == gone)
            groups[joint] = kept;
}

/* Looks for the lowest instrument that closes a loop: lower ones lead from one of its joints to the other. */
static struct glue_fault find_loop(const struct glued *glued)
{
    uint8_t groups[JOINT_BYTES];

    start_groups(groups);
    for (size_t i = 0; i < glued->count; i++) {
        const uint8_t *span = glued->namings[i];

        if (groups[span[2]] == groups[span[3]])
            return instrument_fault(glued, GLUE_LOOP, glued->instruments[i]);
        join_groups(groups, span[2], span[3]);
    }
    return no_fault(glued);
}

/* Puts an instrument on a mount that it fits and moves others if needed; answers false, moving none, if it cannot. */
static bool place_on_mount(struct mounts *mounts, const uint8_t *fit)
{
    for (size_t mount = 0; mount < MOUNTS; mount++) {
        if ((plan_value(fit + 2, 4) >> mount & 1) == 0 || mounts->tried[mount])
            continue;
        mounts->tried[mount] = true;
        if (mounts->fits[mount] == NULL || place_on_mount(mounts, mounts->fits[mount])) {
            mounts->fits[mount] = fit;
            return true;
        }
    }
    return false;
}

/* Looks for the lowest instrument that cannot have a mount together with the lower ones. */
static struct glue_fault find_without_mount(const struct glued *glued)
{
    struct mounts mounts = {.fits = {NULL}};

    for (size_t i = 0; i < glued->count; i++) {
        const uint8_t *fit = glued->namings[i];

        memset(mounts.tried, 0, sizeof mounts.tried);
        if (!place_on_mount(&mounts, fit))
            return instrument_fault(glued, plan_value(fit + 2, 4) == 0 ? GLUE_NO_BITS : GLUE_MOUNT,
                                    glued->instruments[i]);
    }
    return no_fault(glued);
}

/* Looks for a fault by the rule of the team's kind; each instrument is named there. */
static struct glue_fault find_by_kind(const struct glued *glued)
{
    uint8_t kind = plan_kind(glued->plan, glued->team);

    if (kind == PLAN_CAPS)
        return find_beyond_cap(glued);
    return kind == PLAN_LOOPS ? find_loop(glued) : find_without_mount(glued);
}

/* Looks for a fault of a team's glued instruments: what each needs alone, then their number, then the kind's rule. */
static struct glue_fault find_fault(const struct glued *glued)
{
    static struct glue_fault (*const rules[])(const struct glued *) = {find_unnamed, find_off_shelf,
                                                                       find_beyond_channels, find_by_kind};
    struct glue_fault fault = no_fault(glued);

    for (size_t i = 0; i < sizeof rules / sizeof rules[0] && fault.cause == GLUE_STANDS; i++)
        fault = rules[i](glued);
    return fault;
}

/* The lowest team whose glued instruments are not independent, and a cause; the cause GLUE_STANDS if there is none. */
struct glue_fault plan_glue_fault(const struct content *plan)
{
    struct glue_fault fault = {.cause = GLUE_STANDS};

    for (size_t team = 0; team < plan_teams(plan) && fault.cause == GLUE_STANDS; team++) {
        struct glued glued = find_glued(plan, team);

        fault = find_fault(&glued);
    }
    return fault;
}
