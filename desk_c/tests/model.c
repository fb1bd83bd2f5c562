/* A drawn plan as it was drawn, and which sets are independent, by the sentences of the papers. */
#include "model.h"

#include "plan.h"

/* Tells whether a set has an instrument. */
static bool has(unsigned set, unsigned instrument)
{
    return (set >> instrument & 1) != 0;
}

/* The number of ones of a set. */
static unsigned size_of(unsigned set)
{
    unsigned size = 0;

    for (; set != 0; set >>= 1)
        size += set & 1;
    return size;
}

/* Tells whether each instrument of a set is named by the team, and on the shelf on its days. */
static bool each_is_usable(const struct model *model, const struct model_team *team, unsigned set)
{
    for (unsigned instrument = 0; instrument < model->instruments; instrument++) {
        const struct model_days *shelf = &model->shelf[instrument];

        if (!has(set, instrument))
            continue;
        if (!team->namings[instrument].named || team->days.from < shelf->from || team->days.to > shelf->to)
            return false;
    }
    return true;
}

/* Tells whether no class has more instruments of a set than its cap. */
static bool keeps_caps(const struct model_team *team, unsigned set)
{
    unsigned counts[MODEL_CLASSES] = {0};

    for (unsigned instrument = 0; instrument < MODEL_INSTRUMENTS; instrument++) {
        unsigned class = team->namings[instrument].first;

        if (has(set, instrument) && ++counts[class] > team->caps[class])
            return false;
    }
    return true;
}

/* The number of gauges of a set at a joint. */
static unsigned count_at(const struct model_team *team, unsigned set, unsigned joint)
{
    unsigned count = 0;

    for (unsigned instrument = 0; instrument < MODEL_INSTRUMENTS; instrument++)
        if (has(set, instrument) &&
            (team->namings[instrument].first == joint || team->namings[instrument].second == joint))
            count++;
    return count;
}

/* The lowest gauge of a set that is alone at one of its joints; MODEL_INSTRUMENTS if there is none. */
static unsigned find_loose_end(const struct model_team *team, unsigned set)
{
    unsigned instrument = 0;

    while (instrument < MODEL_INSTRUMENTS &&
           !(has(set, instrument) && (count_at(team, set, team->namings[instrument].first) == 1 ||
                                      count_at(team, set, team->namings[instrument].second) == 1)))
        instrument++;
    return instrument;
}

/* Tells whether the gauges of a set have no loop: taken off one by one from loose ends, none is left. */
static bool has_no_loop(const struct model_team *team, unsigned set)
{
    unsigned gauge = find_loose_end(team, set);

    while (gauge < MODEL_INSTRUMENTS) {
        set &= ~(1U << gauge);
        gauge = find_loose_end(team, set);
    }
    return set == 0;
}

/* The mounts that the instruments of a set fit, as bits. */
static unsigned mounts_of(const struct model_team *team, unsigned set)
{
    unsigned mounts = 0;

    for (unsigned instrument = 0; instrument < MODEL_INSTRUMENTS; instrument++)
        if (has(set, instrument))
            mounts |= team->namings[instrument].first;
    return mounts;
}

/* Tells whether each instrument of a set can have a mount: every part of it fits as many mounts as it has members. */
static bool has_mounts(const struct model_team *team, unsigned set)
{
    for (unsigned part = set; part != 0; part = (part - 1) & set)
        if (size_of(mounts_of(team, part)) < size_of(part))
            return false;
    return true;
}

/* Tells whether a set was independent for a team before note 6. */
bool model_was_independent(const struct model *model, unsigned team, unsigned set)
{
    const struct model_team *rules = &model->team[team];

    if (!each_is_usable(model, rules, set) || size_of(set) > rules->channels)
        return false;
    if (rules->kind == PLAN_CAPS)
        return keeps_caps(rules, set);
    return rules->kind == PLAN_LOOPS ? has_no_loop(rules, set) : has_mounts(rules, set);
}

/* Tells whether a set is independent for a team: none of it is glued, and with the team's glued ones it was so. */
bool model_is_independent(const struct model *model, unsigned team, unsigned set)
{
    unsigned glued = 0;

    for (unsigned other = 0; other < model->teams; other++)
        glued |= model->team[other].glued;
    return (set & glued) == 0 && model_was_independent(model, team, set | model->team[team].glued);
}

/* The lowest team whose glued instruments were not independent; the number of teams if there is none. */
unsigned model_loose_team(const struct model *model)
{
    unsigned team = 0;

    while (team < model->teams && model_was_independent(model, team, model->team[team].glued))
        team++;
    return team;
}
