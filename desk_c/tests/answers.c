/* Draws plans and compares the answers of Worth with the sentences of the papers, and those of Page with the layout. */
#include "compare.h"
#include "draw.h"
#include "plan.h"
#include "sheet.h"

#include <stdlib.h>

/* How many sets are tried with each team, and how many damaged sheets and plans with each plan. */
#define SETS 12
#define DAMAGES 6

/* What was tried. */
struct tally {
    size_t loose;   /* of these, those with glued instruments that are not independent */
    size_t worths;  /* of sets to teams in the plan */
    size_t pages;   /* of teams in the plan */
    size_t damaged; /* sheets and plans with a byte changed that are then refused */
};

static struct tally tally;
static struct content plan, sheet;
static struct model model;

/* The worth of each set of the plan's instruments to a team. */
static unsigned worths[1 << MODEL_INSTRUMENTS];

/* A drawn set of numbers 0 to 63. */
static uint64_t draw_set(void)
{
    return (uint64_t)draw(1U << 16) << 48 | (uint64_t)draw(1U << 16) << 32 | (uint64_t)draw(1U << 16) << 16 |
           draw(1U << 16);
}

/* The greatest worth of a set with one instrument less. */
static unsigned worth_with_less(unsigned set)
{
    unsigned greatest = 0;

    for (unsigned instrument = 0; instrument < model.instruments; instrument++) {
        unsigned less = set & ~(1U << instrument);

        if (less != set && worths[less] > greatest)
            greatest = worths[less];
    }
    return greatest;
}

/* The number of members of a set. */
static unsigned size_of(unsigned set)
{
    unsigned size = 0;

    for (; set != 0; set >>= 1)
        size += set & 1;
    return size;
}

/* Finds the worth of each set to a team: the size of its greatest independent part. */
static void find_worths(unsigned team)
{
    for (unsigned set = 0; set < 1U << model.instruments; set++)
        worths[set] = model_is_independent(&model, team, set) ? size_of(set) : worth_with_less(set);
}

/* Tests the worths of drawn sets to a team; bits above the plan's instruments count nothing. */
static void try_worths(unsigned team)
{
    find_worths(team);
    for (int i = 0; i < SETS; i++) {
        uint64_t set = draw_set();

        expect("the worth of a set", worths[set & ((1U << model.instruments) - 1)],
               pool_worth(plan.at, plan.length, team, set));
        tally.worths++;
    }
    expect("the worth of all bits", worths[(1U << model.instruments) - 1],
           pool_worth(plan.at, plan.length, team, UINT64_MAX));
    expect("the worth of no bits", 0, pool_worth(plan.at, plan.length, team, 0));
}

/* Tests that a byte of the sheet is as the layout has it. */
static void try_byte(const char *what, size_t offset, size_t wanted)
{
    expect(what, wanted, offset < sheet.length ? sheet.at[offset] : UINT64_MAX);
}

/* Tests that the bytes of a page are the team's SHARE and a PART for each instrument, and what follows them. */
static void try_page_bytes(size_t offset, size_t length, size_t team)
{
    try_byte("the command byte of SHARE", offset, SHEET_SHARE);
    try_byte("the team of SHARE", offset + 1, team);
    for (size_t i = 0; i < model.instruments; i++) {
        try_byte("the command byte of PART", offset + 11 + 3 * i, SHEET_PART);
        try_byte("the instrument of PART", offset + 11 + 3 * i + 1, i);
    }
    try_byte("the byte after a page", offset + length, team + 1 < model.teams ? SHEET_SHARE : SHEET_END);
}

/* Tests where the page of a team is. */
static void try_page(size_t team)
{
    uint64_t page = pool_page(plan.at, plan.length, sheet.at, sheet.length, team);
    size_t offset = pool_page_offset(page), length = pool_page_length(page);

    expect("the length of a page", 11 + 3 * model.instruments, length);
    expect("the offset of a page", sheet_share(sheet_shape(&plan), team), offset);
    try_page_bytes(offset, length, team);
    tally.pages++;
}

/* Tests that a team that is not in the plan has the empty page, and that every set is worth 0 to it. */
static void try_stranger(size_t team)
{
    expect("the page of a team that is not in the plan", POOL_NO_PAGE,
           pool_page(plan.at, plan.length, sheet.at, sheet.length, team));
    expect("a worth to a team that is not in the plan", 0, pool_worth(plan.at, plan.length, team, draw_set()));
}

/* Tries teams that are not in the plan. */
static void try_strangers(void)
{
    const size_t strangers[] = {model.teams, model.teams + 1 + draw(300), 256, 65536, SIZE_MAX / 2 + 1, SIZE_MAX};

    for (size_t i = 0; i < sizeof strangers / sizeof strangers[0]; i++)
        try_stranger(strangers[i]);
}

/* Tests that Worth refuses a refused plan as Build does, and that every page is then empty. */
static void try_refused(uint64_t refusal)
{
    static const size_t teams[] = {0, 1, POOL_TEAMS_MAX, SIZE_MAX};

    for (size_t i = 0; i < sizeof teams / sizeof teams[0]; i++) {
        expect("Worth of a refused plan", refusal, pool_worth(plan.at, plan.length, teams[i], draw_set()));
        expect("a page of a refused plan", POOL_NO_PAGE,
               pool_page(plan.at, plan.length, sheet.at, sheet.length, teams[i]));
    }
    tally.damaged++;
}

/* Builds the plan's sheet; answers the refusal, if any. */
static uint64_t build(uint8_t *buffer)
{
    return pool_build(plan.at, plan.length, buffer, POOL_SHEET_MAX);
}

/* Tests the plan with a drawn byte changed, if it is then refused. */
static void try_damaged_plan(void)
{
    uint8_t *byte = plan.at + draw((unsigned)plan.length), before = *byte, lent[POOL_SHEET_MAX];
    uint64_t answer;

    *byte = (uint8_t)draw(256);
    answer = build(lent);
    if (pool_refused(answer))
        try_refused(answer);
    *byte = before;
}

/* Tests that every page is empty of a sheet with a drawn byte changed, if that is refused. */
static void try_damaged_sheet(void)
{
    uint8_t *byte = sheet.at + draw((unsigned)sheet.length), before = *byte;

    *byte = (uint8_t)draw(256);
    if (pool_check(plan.at, plan.length, sheet.at, sheet.length) != POOL_ACCEPTED) {
        expect("a page of a refused sheet", POOL_NO_PAGE,
               pool_page(plan.at, plan.length, sheet.at, sheet.length, draw(model.teams)));
        tally.damaged++;
    }
    *byte = before;
}

/* Tests that every page is empty of a sheet that is cut or longer. */
static void try_length(size_t length)
{
    for (size_t team = 0; team < model.teams; team++)
        expect("a page of a sheet of another length", POOL_NO_PAGE,
               pool_page(plan.at, plan.length, sheet.at, length, team));
}

/* Tries the teams of an accepted plan and of the sheet that Build makes of it. */
static void try_accepted(void)
{
    for (unsigned team = 0; team < model.teams; team++) {
        try_worths(team);
        try_page(team);
    }
    try_strangers();
    try_length(sheet.length - 1);
    try_length(sheet.length + 1);
    try_length(0);
}

/* Tries a plan that was drawn. */
static void try_plan(void)
{
    uint64_t answer = build(sheet.at);

    if (pool_refused(answer)) {
        expect("the refusal of a drawn plan", 18 * POOL_REFUSAL + plan.length - 1, answer);
        try_refused(answer);
        tally.loose++;
        return;
    }
    sheet.length = (size_t)answer;
    try_accepted();
    for (int i = 0; i < DAMAGES; i++) {
        try_damaged_plan();
        try_damaged_sheet();
    }
}

/* answers COUNT draws that many plans and prints each failure, and how much was tried. */
int main(int argc, char *argv[])
{
    size_t count;

    if (argc != 2)
        return 2;
    count = strtoul(argv[1], NULL, 10);
    for (compared.plans = 0; compared.plans < count; compared.plans++) {
        draw_plan(&plan, &model);
        try_plan();
    }
    printf("%zu plans, %zu loose, %zu worths, %zu pages, %zu damaged, %zu failures\n", compared.plans, tally.loose,
           tally.worths, tally.pages, tally.damaged, compared.failures);
    return fflush(stdout) == 0 ? 0 : 2;
}
