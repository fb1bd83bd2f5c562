/* Draws plans with loan days, spans and glued instruments and tries the library on them and on their damaged forms. */
#include "compare.h"
#include "draw.h"
#include "plan.h"
#include "plan_days.h"
#include "plan_glue.h"
#include "sheet.h"

#include <stdlib.h>
#include <string.h>

/* The byte that fills a buffer before it is lent. */
#define FILLER 0xA5

/* What was tried. */
struct tally {
    size_t given;     /* instruments that a team holds */
    size_t outside;   /* instruments given to a team out of its days */
    size_t turned;    /* days with from not below to */
    size_t repeated;  /* days named a second time */
    size_t misplaced; /* SHELFs after a team, DAYS and GLUEs before the first */
    size_t joints;    /* SPANs with a joint out of range */
    size_t loose;     /* plans with a team whose glued instruments are not independent */
    size_t glued;     /* glued instruments of plans without such a team */
    size_t reglued;   /* GLUEs of a glued instrument */
    size_t moved;     /* held instruments given to another team */
    size_t causes[GLUE_MOUNT + 1]; /* the loose plans by cause */
};

static struct tally tally;
static struct content plan, sheet;
static struct model model;

/* Puts bytes into the plan before an offset. */
static void insert(size_t offset, const uint8_t *bytes, size_t count)
{
    memmove(plan.at + offset + count, plan.at + offset, plan.length - offset);
    memcpy(plan.at + offset, bytes, count);
    plan.length += count;
}

/* Takes bytes out of the plan at an offset. */
static void cut(size_t offset, size_t count)
{
    plan.length -= count;
    memmove(plan.at + offset, plan.at + offset + count, plan.length - offset);
}

/* Tests that Build writes a sheet of the right length and no byte beyond, and that Check accepts it. */
static void try_build(void)
{
    size_t length = sheet_length(sheet_shape(&plan));

    memset(sheet.at, FILLER, sizeof sheet.at);
    sheet.length = length;
    expect("the length of the sheet", length, pool_build(plan.at, plan.length, sheet.at, POOL_SHEET_MAX));
    for (size_t offset = length; offset < sizeof sheet.at; offset++)
        expect("a byte beyond the sheet", FILLER, sheet.at[offset]);
    expect("Check of what was built", POOL_ACCEPTED, pool_check(plan.at, plan.length, sheet.at, length));
}

/* Tests that a team whose days do not lie within an instrument's shelf days does not hold it, and cannot be given it. */
static void try_outside(size_t team, size_t instrument)
{
    uint8_t *holder = sheet.at + sheet_give(instrument) + 2, before = *holder;

    expect("an instrument out of its team's days", 0, before == team);
    *holder = (uint8_t)team;
    expect("Check of an instrument out of days", 13 * POOL_REFUSAL + team,
           pool_check(plan.at, plan.length, sheet.at, sheet.length));
    *holder = before;
    tally.outside++;
}

/* Tests that a glued instrument is in the pool, and that no team can be given it. */
static void try_glued(size_t instrument)
{
    uint8_t *holder = sheet.at + sheet_give(instrument) + 2;

    expect("the team of a glued instrument", SHEET_POOL, *holder);
    for (size_t team = 0; team < model.teams; team++) {
        *holder = (uint8_t)team;
        expect("Check of a glued instrument given to a team", 13 * POOL_REFUSAL + team,
               pool_check(plan.at, plan.length, sheet.at, sheet.length));
    }
    *holder = SHEET_POOL;
    tally.glued++;
}

/* The set of instruments that a team holds. */
static unsigned held_by(size_t team)
{
    unsigned set = 0;

    for (unsigned instrument = 0; instrument < model.instruments; instrument++)
        if (sheet_owner(&sheet, instrument) == team)
            set |= 1U << instrument;
    return set;
}

/* Tests that an instrument moved to another team is refused exactly if that team's bundle is then not independent. */
static void try_moved(size_t instrument, unsigned team)
{
    uint8_t *holder = sheet.at + sheet_give(instrument) + 2, before = *holder;
    uint64_t answer;
    bool stands;

    *holder = (uint8_t)team;
    stands = model_is_independent(&model, team, held_by(team));
    answer = pool_check(plan.at, plan.length, sheet.at, sheet.length);
    if (stands)
        expect("Check of a moved instrument", 0, pool_number(answer) == 13);
    else
        expect("Check of an instrument moved in vain", 13 * POOL_REFUSAL + team, answer);
    *holder = before;
    tally.moved++;
}

/* Tries each glued instrument, and each held one with each other team. */
static void try_owners(void)
{
    for (size_t instrument = 0; instrument < model.instruments; instrument++) {
        size_t owner = sheet_owner(&sheet, instrument);

        if (plan_glue_team(&plan, instrument) != GLUE_NONE)
            try_glued(instrument);
        for (unsigned team = 0; owner != SHEET_POOL && team < model.teams; team++)
            if (team != owner)
                try_moved(instrument, team);
    }
}

/* Tries each team with each instrument that is out of its days. */
static void try_division(void)
{
    struct sheet_shape shape = sheet_shape(&plan);

    for (size_t instrument = 0; instrument < shape.instruments; instrument++) {
        tally.given += sheet_owner(&sheet, instrument) != SHEET_POOL;
        for (size_t team = 0; team < shape.teams; team++)
            if (!plan_is_usable(&plan, team, instrument))
                try_outside(team, instrument);
    }
}

/* Tests that Build, Check and List refuse the plan alike, and that a lent buffer is then untouched. */
static void try_refused(const char *what, uint64_t number, size_t place)
{
    uint64_t wanted = number * POOL_REFUSAL + place;
    uint8_t lent[POOL_SHEET_MAX];

    memset(lent, FILLER, sizeof lent);
    expect(what, wanted, pool_build(plan.at, plan.length, lent, sizeof lent));
    expect(what, wanted, pool_check(plan.at, plan.length, sheet.at, sheet.length));
    expect(what, wanted, pool_list(plan.at, plan.length, sheet.at, sheet.length, lent, sizeof lent));
    for (size_t offset = 0; offset < sizeof lent; offset++)
        expect("a byte of a buffer lent in vain", FILLER, lent[offset]);
}

/* Tests days whose from is their to, and days with from and to swapped. */
static void try_turned(size_t offset, uint8_t *days)
{
    uint8_t before[PLAN_DAYS_SIZE];

    memcpy(before, days, PLAN_DAYS_SIZE);
    memcpy(days + 2, before, 2);
    try_refused("from equal to to", 17, offset);
    memcpy(days, before + 2, 2);
    try_refused("from above to", 17, offset);
    memcpy(days, before, PLAN_DAYS_SIZE);
    tally.turned += 2;
}

/* Tests a SHELF or a DAYS with its days turned, and a second one after it: in order it is 6, turned 17. */
static void try_command(size_t offset)
{
    size_t size = 1 + plan_size(plan_form(plan.at[offset]));
    uint8_t again[1 + 5];

    try_turned(offset, plan.at + offset + size - PLAN_DAYS_SIZE);
    memcpy(again, plan.at + offset, size);
    insert(offset + size, again, size);
    try_refused("days named a second time", 6, offset + size);
    try_turned(offset + size, plan.at + offset + 2 * size - PLAN_DAYS_SIZE);
    cut(offset + size, size);
    tally.repeated++;
}

/* Tests a SPAN with joint 40, with joint 63 and with a drawn one out of range, in each place and in both. */
static void try_span(size_t offset)
{
    uint8_t *joint = plan.at + offset + 2, before[] = {joint[0], joint[1]};
    const uint8_t beyond[] = {DRAW_JOINTS, 63, (uint8_t)(DRAW_JOINTS + draw(256 - DRAW_JOINTS))};

    for (unsigned which = 1; which < 4; which++)
        for (size_t choice = 0; choice < sizeof beyond; choice++) {
            joint[0] = which & 1 ? beyond[choice] : before[0];
            joint[1] = which & 2 ? beyond[choice] : before[1];
            try_refused("a joint out of range", 5, offset);
            tally.joints++;
        }
    memcpy(joint, before, sizeof before);
}

/* Tests a GLUE of an instrument that is not in the plan, and a second GLUE right after it and in the last team. */
static void try_glue(size_t offset)
{
    uint8_t instrument = plan.at[offset + 1], again[] = {PLAN_GLUE, instrument};
    size_t end = plan.length - 1;

    plan.at[offset + 1] = (uint8_t)(model.instruments + draw(256 - model.instruments));
    try_refused("a GLUE of an unknown instrument", 5, offset);
    plan.at[offset + 1] = instrument;
    insert(offset + 2, again, sizeof again);
    try_refused("a second GLUE", 6, offset + 2);
    cut(offset + 2, sizeof again);
    insert(end, again, sizeof again);
    try_refused("a second GLUE in the last team", 6, end);
    cut(end, sizeof again);
    tally.reglued += 2;
}

/* Tests each SHELF, each DAYS, each SPAN and each GLUE of the plan. */
static void try_commands(void)
{
    struct plan_place place = plan_first();

    while (plan_next(&plan, &place))
        if (plan.at[place.previous] == PLAN_SHELF || plan.at[place.previous] == PLAN_DAYS)
            try_command(place.previous);
        else if (plan.at[place.previous] == PLAN_SPAN)
            try_span(place.previous);
        else if (plan.at[place.previous] == PLAN_GLUE)
            try_glue(place.previous);
}

/* Tests a SHELF in the last team, and a DAYS and a GLUE before the first. */
static void try_misplaced(void)
{
    static const uint8_t shelf[] = {PLAN_SHELF, 0, 0, 0, 7, 0}, days[] = {PLAN_DAYS, 0, 0, 7, 0},
                         glue[] = {PLAN_GLUE, 0};
    size_t end = plan.length - 1;

    insert(end, shelf, sizeof shelf);
    try_refused("a SHELF after a team", 4, end);
    cut(end, sizeof shelf);
    insert(3, days, sizeof days);
    try_refused("DAYS before the first team", 4, 3);
    cut(3, sizeof days);
    insert(3, glue, sizeof glue);
    try_refused("a GLUE before the first team", 4, 3);
    cut(3, sizeof glue);
    tally.misplaced += 3;
}

/* Draws an instrument that is glued to a team. */
static unsigned draw_glued(unsigned team)
{
    unsigned instrument = draw(MODEL_INSTRUMENTS);

    while ((model.team[team].glued >> instrument & 1) == 0)
        instrument = draw(MODEL_INSTRUMENTS);
    return instrument;
}

/* Takes the GLUE of an instrument of a team out of the plan and out of its model. */
static void unglue(unsigned team)
{
    struct plan_place place = plan_first();
    unsigned instrument = draw_glued(team);

    while (plan_next(&plan, &place))
        if (plan.at[place.previous] == PLAN_GLUE && plan.at[place.previous + 1] == instrument)
            break;
    cut(place.previous, 2);
    model.team[team].glued &= ~(1U << instrument);
}

/* Tests that lower glued instruments are independent and those up to an instrument are not. */
static void try_first_instrument(const struct glue_fault *fault)
{
    unsigned team = (unsigned)fault->team, instrument = 1U << fault->which, glued = model.team[team].glued;

    expect("an instrument that is glued", instrument, instrument & glued);
    expect("glued instruments below another", true, model_was_independent(&model, team, glued & (instrument - 1)));
    expect("glued instruments up to one", false, model_was_independent(&model, team, glued & (2 * instrument - 1)));
}

/* Tests that a cause is so. */
static void try_cause(const struct glue_fault *fault)
{
    const struct model_team *team = &model.team[fault->team];

    switch (fault->cause) {
    case GLUE_UNNAMED:
        expect("the naming of an unnamed instrument", false, team->namings[fault->which].named);
        break;
    case GLUE_OFF_SHELF:
        expect("the days of an instrument off the shelf", false, plan_is_usable(&plan, fault->team, fault->which));
        break;
    case GLUE_CHANNELS:
        expect("the channels", team->channels, fault->limit);
        expect("instruments beyond the channels", true, fault->count > fault->limit);
        break;
    case GLUE_CLASS:
        expect("the cap", team->caps[fault->which], fault->limit);
        expect("instruments beyond the cap", true, fault->count > fault->limit);
        break;
    case GLUE_LOOP:
    case GLUE_NO_BITS:
    case GLUE_MOUNT:
        try_first_instrument(fault);
        break;
    case GLUE_STANDS:
        expect("a cause", true, false);
        break;
    }
    tally.causes[fault->cause]++;
}

/* Tests that the reason given in words is about the lowest team whose glued instruments are not independent, if any. */
static void try_reason(unsigned team)
{
    struct glue_fault fault = plan_glue_fault(&plan);

    expect("a reason", team < model.teams, fault.cause != GLUE_STANDS);
    if (fault.cause == GLUE_STANDS)
        return;
    expect("the team of the reason", team, fault.team);
    try_cause(&fault);
}

/* Tests that a plan with a team whose glued instruments are not independent is refused, with a byte after END too. */
static void try_loose_team(unsigned team)
{
    size_t end = plan.length - 1;

    try_reason(team);
    try_refused("glued instruments that are not independent", 18, end);
    plan.at[plan.length++] = (uint8_t)draw(256);
    try_refused("glued instruments and a byte after END", 18, end);
    plan.length--;
    tally.loose++;
}

/* Takes GLUEs out of the plan, one after the other, until each team's glued instruments are independent. */
static void try_loose(void)
{
    unsigned team = model_loose_team(&model);

    while (team < model.teams) {
        try_loose_team(team);
        unglue(team);
        team = model_loose_team(&model);
    }
    try_reason(team);
}

/* random COUNT draws that many plans and prints each failure, and how much was tried. */
int main(int argc, char *argv[])
{
    size_t count;

    if (argc != 2)
        return 2;
    count = strtoul(argv[1], NULL, 10);
    for (compared.plans = 0; compared.plans < count; compared.plans++) {
        draw_plan(&plan, &model);
        try_loose();
        try_build();
        try_division();
        try_owners();
        try_commands();
        try_misplaced();
    }
    printf("%zu plans, %zu given, %zu out of days, %zu turned, ", compared.plans, tally.given, tally.outside, tally.turned);
    printf("%zu repeated, %zu misplaced, %zu joints, ", tally.repeated, tally.misplaced, tally.joints);
    printf("%zu loose (", tally.loose);
    for (size_t cause = GLUE_UNNAMED; cause <= GLUE_MOUNT; cause++)
        printf(cause == GLUE_UNNAMED ? "%zu" : " %zu", tally.causes[cause]);
    printf("), %zu glued, %zu reglued, %zu moved, %zu failures\n", tally.glued, tally.reglued, tally.moved,
           compared.failures);
    return fflush(stdout) == 0 ? 0 : 2;
}
