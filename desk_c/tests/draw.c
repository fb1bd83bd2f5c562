/* Draws plans, and notes what they say. */
#include "draw.h"

#include "plan.h"

static uint64_t state = UINT64_C(88172645463325252);

/* A number below a limit, by a shift register. */
unsigned draw(unsigned limit)
{
    state ^= state << 13;
    state ^= state >> 7;
    state ^= state << 17;
    return (unsigned)(state >> 33) % limit;
}

/* Ends of days, close to each other and to the ends of all days. */
static unsigned draw_end(void)
{
    static const unsigned ends[] = {0, 1, 7, 8, 255, 256, 257, 65534, 65535};

    return ends[draw(sizeof ends / sizeof ends[0])];
}

/* Puts a byte at the end of the plan. */
static void put(struct content *plan, unsigned byte)
{
    plan->at[plan->length++] = (uint8_t)byte;
}

/* Puts a from and a to, with from below to. */
static struct model_days put_days(struct content *plan)
{
    struct model_days days = {draw_end(), draw_end()};

    while (days.from >= days.to)
        days = (struct model_days){draw_end(), draw_end()};
    put(plan, days.from & 0xFF);
    put(plan, days.from >> 8);
    put(plan, days.to & 0xFF);
    put(plan, days.to >> 8);
    return days;
}

/* Puts the command that names an instrument of a team. */
static void put_naming(struct content *plan, struct model_team *team, unsigned instrument)
{
    struct model_naming *naming = &team->namings[instrument];
    unsigned first = draw(5), kind = team->kind;

    *naming = (struct model_naming){.named = true, .first = kind == PLAN_CAPS ? first % MODEL_CLASSES : first};
    if (kind == PLAN_LOOPS) {
        naming->first = DRAW_JOINTS - 1 - first;
        naming->second = DRAW_JOINTS - 1 - (first + 1 + draw(4)) % 5;
    }
    put(plan, kind == PLAN_CAPS ? PLAN_PUT : kind == PLAN_LOOPS ? PLAN_SPAN : PLAN_FIT);
    put(plan, instrument);
    put(plan, naming->first);
    if (kind == PLAN_LOOPS)
        put(plan, naming->second);
    for (size_t byte = 1; kind == PLAN_MOUNTS && byte < 4; byte++)
        put(plan, 0);
}

/* Puts a GLUE. */
static void put_glue(struct content *plan, struct model_team *team, unsigned instrument)
{
    put(plan, PLAN_GLUE);
    put(plan, instrument);
    team->glued |= 1U << instrument;
}

/* Puts the caps of a CAPS team. */
static void put_caps(struct content *plan, struct model_team *team)
{
    for (unsigned class = 0; class < MODEL_CLASSES; class++) {
        team->caps[class] = draw(4);
        put(plan, PLAN_CLASS);
        put(plan, class);
        put(plan, team->caps[class]);
    }
}

/* Puts what a team says of an instrument: a GLUE, if it is glued there, before or after its naming, if it has one. */
static void put_instrument(struct content *plan, struct model_team *team, unsigned instrument, bool glued)
{
    bool early = draw(2) > 0;

    if (glued && early)
        put_glue(plan, team, instrument);
    if (draw(8) > 0)
        put_naming(plan, team, instrument);
    if (glued && !early)
        put_glue(plan, team, instrument);
}

/* Puts the DAYS of a team. */
static void put_team_days(struct content *plan, struct model_team *team)
{
    put(plan, PLAN_DAYS);
    team->days = put_days(plan);
}

/* Puts a team of a drawn kind; its DAYS, if any, before or after its other commands. Homes are the teams of GLUEs. */
static void put_team(struct content *plan, struct model *model, const unsigned *homes)
{
    static const unsigned kinds[] = {PLAN_CAPS, PLAN_LOOPS, PLAN_MOUNTS}, channels[] = {0, 1, 2, 3, 255};
    struct model_team *team = &model->team[model->teams];
    unsigned days = draw(3);

    *team = (struct model_team){.kind = kinds[draw(3)], .channels = channels[draw(5)], .days = {0, 65535}};
    put(plan, team->kind);
    put(plan, team->channels);
    if (team->kind == PLAN_CAPS)
        put_caps(plan, team);
    if (days == 1)
        put_team_days(plan, team);
    for (unsigned instrument = 0; instrument < model->instruments; instrument++)
        put_instrument(plan, team, instrument, homes[instrument] == model->teams);
    if (days == 2)
        put_team_days(plan, team);
    model->teams++;
}

/* Puts a SHELF for about half of the instruments, or for none. */
static void put_shelves(struct content *plan, struct model *model)
{
    bool some = draw(2) > 0;

    for (unsigned instrument = 0; instrument < model->instruments; instrument++) {
        model->shelf[instrument] = (struct model_days){0, 65535};
        if (!some || draw(2) == 0)
            continue;
        put(plan, PLAN_SHELF);
        put(plan, instrument);
        model->shelf[instrument] = put_days(plan);
    }
}

/* Draws a plan that meets no refusal but 18, and notes it in the model. About half of the instruments are glued. */
void draw_plan(struct content *plan, struct model *model)
{
    unsigned teams = 1 + draw(MODEL_TEAMS), homes[MODEL_INSTRUMENTS];

    *model = (struct model){.instruments = draw(MODEL_INSTRUMENTS + 1)};
    plan->length = 0;
    put(plan, PLAN_START);
    put(plan, 1);
    put(plan, model->instruments);
    put_shelves(plan, model);
    for (unsigned instrument = 0; instrument < model->instruments; instrument++)
        homes[instrument] = draw(2 * teams);
    while (model->teams < teams)
        put_team(plan, model, homes);
    put(plan, PLAN_END);
}
