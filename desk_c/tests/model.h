/* A drawn plan as it was drawn, and which sets are independent, by the sentences of the papers. */
#ifndef MODEL_H
#define MODEL_H

#include <stdbool.h>

/* The most instruments, teams and classes of a drawn plan. */
#define MODEL_INSTRUMENTS 10
#define MODEL_TEAMS 4
#define MODEL_CLASSES 3

/* Days: from is included, to is not. */
struct model_days {
    unsigned from;
    unsigned to;
};

/* What a team says of an instrument: its class, its two joints, or its mounts as bits. */
struct model_naming {
    bool named;
    unsigned first;
    unsigned second;
};

/* A team. */
struct model_team {
    unsigned kind; /* the command byte that opens it */
    unsigned channels;
    unsigned caps[MODEL_CLASSES];
    struct model_days days;
    struct model_naming namings[MODEL_INSTRUMENTS];
    unsigned glued; /* the set of its glued instruments, bit k for instrument k */
};

/* A plan. */
struct model {
    unsigned instruments;
    unsigned teams;
    struct model_days shelf[MODEL_INSTRUMENTS];
    struct model_team team[MODEL_TEAMS];
};

/* Tells whether a set was independent for a team before note 6. */
bool model_was_independent(const struct model *model, unsigned team, unsigned set);

/* Tells whether a set is independent for a team: none of it is glued, and with the team's glued ones it was so. */
bool model_is_independent(const struct model *model, unsigned team, unsigned set);

/* The lowest team whose glued instruments were not independent; the number of teams if there is none. */
unsigned model_loose_team(const struct model *model);

#endif
