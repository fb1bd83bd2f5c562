/* What is wrong with a plan, in words: refusals 1 to 9, 17 and 18. */
#include "plan.h"
#include "plan_days.h"
#include "refusal.h"

#include <inttypes.h>

/* A refused plan and its faulty command. */
struct fault {
    FILE *out;
    const struct content *plan;
    struct plan_place place;
    const uint8_t *command;       /* the bytes of the faulty command */
    size_t size;                  /* how many of them are in the file */
    size_t whole;                 /* how many a command of its form has; 0 if it is no command */
    const struct plan_form *form; /* null if it is no command */
};

/* Finds the command at a refusal's place, as far as the file goes there. */
static struct fault find_fault(FILE *out, const struct refusal *refusal)
{
    struct fault fault = {.out = out, .plan = refusal->plan, .place = plan_at(refusal->plan, refusal->place)};

    fault.command = fault.plan->at + fault.place.offset;
    fault.size = fault.plan->length - fault.place.offset;
    if (fault.size > 0)
        fault.form = plan_form(fault.command[0]);
    if (fault.form == NULL)
        return fault;
    fault.whole = 1 + plan_size(fault.form);
    if (fault.size > fault.whole)
        fault.size = fault.whole;
    return fault;
}

/* Begins a sentence with the faulty command: its number, name, offset and bytes. */
static void print_command(const struct fault *fault)
{
    fprintf(fault->out, "Command %zu of the plan, %s at byte %zu (", fault->place.number, fault->form->name,
            fault->place.offset);
    for (size_t i = 0; i < fault->size; i++)
        fprintf(fault->out, i == 0 ? "%02X" : " %02X", fault->command[i]);
    fputs("), ", fault->out);
}

/* 1: the plan does not begin with START. */
static void print_no_start(const struct fault *fault)
{
    if (fault->plan->length == 0)
        fputs("The plan is empty; command 1, at byte 0, has to be START (01).", fault->out);
    else
        fprintf(fault->out, "Command 1 of the plan, at byte 0, is %02X; it has to be START (01).", fault->plan->at[0]);
}

/* 2 after a whole command: the plan has no END. */
static void print_no_end(const struct fault *fault)
{
    const struct plan_place *place = &fault->place;

    fprintf(fault->out, "The plan ends at byte %zu without END (07); its last command is command %zu, %s at byte %zu.",
            place->offset, place->number - 1, plan_form(fault->plan->at[place->previous])->name, place->previous);
}

/* 2 within a command: its operands are cut short. They are counted in bytes where one has several. */
static void print_cut_short(const struct fault *fault)
{
    size_t size = plan_size(fault->form), count = plan_count(fault->form);

    print_command(fault);
    fprintf(fault->out, "is cut short; it takes %zu ", size);
    if (size > count)
        fputs("bytes of operands", fault->out);
    else
        fputs(count == 1 ? "operand" : "operands", fault->out);
    fprintf(fault->out, ", and the file ends after %zu.", fault->size - 1);
}

/* 3: the byte is no command. */
static void print_unknown(const struct fault *fault)
{
    fprintf(fault->out, "Command %zu of the plan, at byte %zu, is %02X, which is no command; commands are 01 to %02X.",
            fault->place.number, fault->place.offset, fault->command[0], PLAN_LAST);
}

/* 4 for a command of a team: no team or another kind of team is open. */
static void print_wrong_team(const struct fault *fault)
{
    fprintf(fault->out, "is in the wrong place; it belongs to a %s team, and ", plan_form(fault->form->team)->name);
    if (fault->place.teams == 0)
        fputs("no team is open.", fault->out);
    else
        fprintf(fault->out, "team %zu is a %s team.", fault->place.teams - 1,
                plan_form(fault->plan->at[fault->place.team])->name);
}

/* 4: the command does not belong where it stands. */
static void print_misplaced(const struct fault *fault)
{
    print_command(fault);
    if (fault->command[0] == PLAN_START)
        fputs("is a second START; START stands first and once.", fault->out);
    else if (fault->command[0] == PLAN_END)
        fprintf(fault->out, "ends a plan without teams; a plan has 1 to %d teams.", POOL_TEAMS_MAX);
    else if (fault->form->team == PLAN_BEFORE_TEAMS && fault->place.teams > 0)
        fprintf(fault->out, "is in the wrong place; it belongs before the first team, and team %zu is open.",
                fault->place.teams - 1);
    else if (fault->form->team == PLAN_ANY_TEAM && fault->place.teams == 0)
        fputs("is in the wrong place; it belongs to a team, and no team is open.", fault->out);
    else if (plan_form(fault->form->team) != NULL)
        print_wrong_team(fault);
    else
        fputs("is in the wrong place.", fault->out);
}

/* 5 for an instrument: the plan does not have it. */
static void print_no_instrument(const struct fault *fault, uint64_t instrument)
{
    size_t instruments = plan_instruments(fault->plan);

    fprintf(fault->out, "has instrument %" PRIu64 "; the plan has ", instrument);
    if (instruments == 0)
        fputs("no instruments.", fault->out);
    else
        fprintf(fault->out, "the instruments 0 to %zu.", instruments - 1);
}

/* 5 for another operand: its name, its value and the values it may have. */
static void print_wrong_value(const struct fault *fault, struct plan_operand operand, uint64_t value)
{
    fprintf(fault->out, "has %s %" PRIu64 "; allowed is ", operand.name, value);
    plan_print_range(fault->out, operand);
    fputs(".", fault->out);
}

/* The name and values of an operand in the refused plan, which has instruments of its own number. */
static struct plan_operand operand_here(const struct fault *fault, enum operand operand)
{
    struct plan_operand answer = plan_operand(operand);

    if (operand == OPERAND_INSTRUMENT)
        answer.end = plan_instruments(fault->plan);
    return answer;
}

/* 5: an operand is out of its range; the first such operand is named. */
static void print_out_of_range(const struct fault *fault)
{
    const uint8_t *bytes = fault->command + 1;

    print_command(fault);
    for (size_t i = 0; i < plan_count(fault->form); i++) {
        struct plan_operand operand = operand_here(fault, fault->form->operands[i]);
        uint64_t value = plan_value(bytes, operand.size);

        bytes += operand.size;
        if (operand.is_mask || (value >= operand.least && value < operand.end))
            continue;
        if (fault->form->operands[i] == OPERAND_INSTRUMENT)
            print_no_instrument(fault, value);
        else
            print_wrong_value(fault, operand, value);
        return;
    }
    fputs("has an operand out of its range.", fault->out);
}

/* Tells whether a command names what the faulty one names: the same class or instrument, or for DAYS its team. */
static bool names_same(const struct fault *fault, const uint8_t *command)
{
    return command[0] == fault->command[0] && (command[0] == PLAN_DAYS || command[1] == fault->command[1]);
}

/* Finds the first command that names what the faulty one names: in the open team or before all teams; a GLUE in any. */
static struct plan_place first_naming(const struct fault *fault)
{
    bool anywhere = fault->command[0] == PLAN_GLUE;
    struct plan_place place = anywhere ? plan_first() : plan_at(fault->plan, fault->place.team);

    while (plan_next(fault->plan, &place))
        if (names_same(fault, fault->plan->at + place.offset))
            break;
    return place;
}

/* Tells whether a command names something where it stands: SHELF before all teams, others in a team. */
static bool can_repeat(const struct fault *fault)
{
    if (fault->command[0] == PLAN_SHELF)
        return fault->place.teams == 0;
    return fault->size > 1 && fault->place.teams > 0;
}

/* Prints what a command names, and in which team. */
static void print_named(const struct fault *fault)
{
    if (fault->command[0] == PLAN_SHELF)
        fprintf(fault->out, "names the shelf days of instrument %u a second time", fault->command[1]);
    else if (fault->command[0] == PLAN_DAYS)
        fprintf(fault->out, "names the days of team %zu a second time", fault->place.teams - 1);
    else if (fault->command[0] == PLAN_GLUE)
        fprintf(fault->out, "glues instrument %u to team %zu, and it is glued to team %zu already", fault->command[1],
                fault->place.teams - 1, plan_glue_team(fault->plan, fault->command[1]));
    else
        fprintf(fault->out, "%s %u a second time in team %zu",
                fault->command[0] == PLAN_CLASS ? "caps class" : "names instrument", fault->command[1],
                fault->place.teams - 1);
}

/* 6: a class is capped twice, an instrument named twice in one team or glued twice in any, or days named twice. */
static void print_repeated(const struct fault *fault)
{
    struct plan_place first = first_naming(fault);

    print_command(fault);
    print_named(fault);
    fprintf(fault->out, "; the first time is command %zu at byte %zu.", first.number, first.offset);
}

/* 7: there are too many teams. */
static void print_too_many_teams(const struct fault *fault)
{
    print_command(fault);
    fprintf(fault->out, "opens team %zu; a plan has at most %d teams, 0 to %d.", fault->place.teams, POOL_TEAMS_MAX,
            POOL_TEAMS_MAX - 1);
}

/* 8: a gauge's two joints are one. */
static void print_equal_joints(const struct fault *fault)
{
    print_command(fault);
    fprintf(fault->out, "joins joint %u to itself; its two joints have to differ.", fault->command[2]);
}

/* 9: the file goes on after END. */
static void print_extra(const struct fault *fault)
{
    fprintf(fault->out, "The plan goes on at byte %zu after command %zu, END at byte %zu; nothing may follow END.",
            fault->place.offset, fault->place.number - 1, fault->place.previous);
}

/* Tells whether a command has a from and a to. */
static bool has_days(const struct fault *fault)
{
    return fault->command[0] == PLAN_SHELF || fault->command[0] == PLAN_DAYS;
}

/* 17: a from is not below its to. */
static void print_wrong_days(const struct fault *fault)
{
    struct plan_days days = plan_days(fault->command + fault->size - PLAN_DAYS_SIZE);

    print_command(fault);
    fprintf(fault->out, "has from %u and to %u; from has to be below to.", days.from, days.to);
}

/* 18: a team's glued instruments are not independent, by what stands before END; answers false if each team's are. */
static bool print_wrong_glue(const struct fault *fault)
{
    struct content before = *fault->plan;
    struct glue_fault glue;

    before.length = fault->place.offset;
    glue = plan_glue_fault(&before);
    if (glue.cause == GLUE_STANDS)
        return false;
    print_command(fault);
    fputs("ends a plan in which ", fault->out);
    refusal_print_glue(fault->out, &before, &glue);
    return true;
}

/* Prints the fault of a command that is whole, for the numbers 4 to 8, 17 and 18; answers false for another number. */
static bool print_whole(const struct fault *fault, uint64_t number)
{
    if (number == 4)
        print_misplaced(fault);
    else if (number == 5)
        print_out_of_range(fault);
    else if (number == 6 && can_repeat(fault))
        print_repeated(fault);
    else if (number == 7)
        print_too_many_teams(fault);
    else if (number == 8 && fault->size > 2)
        print_equal_joints(fault);
    else if (number == 17 && has_days(fault))
        print_wrong_days(fault);
    else if (number == 18 && fault->command[0] == PLAN_END)
        return print_wrong_glue(fault);
    else
        return false;
    return true;
}

/* Prints what is wrong with the plan, for the numbers 1 to 9, 17 and 18; answers false for another refusal. */
bool refusal_print_plan(FILE *out, const struct refusal *refusal)
{
    struct fault fault = find_fault(out, refusal);

    if (fault.place.offset != refusal->place)
        return false;
    if (fault.form != NULL && fault.size == fault.whole && print_whole(&fault, refusal->number))
        return true;
    if (refusal->number == 1)
        print_no_start(&fault);
    else if (refusal->number == 2 && fault.size > 0 && fault.form != NULL)
        print_cut_short(&fault);
    else if (refusal->number == 2 && fault.size == 0 && fault.place.number > 1)
        print_no_end(&fault);
    else if (refusal->number == 3 && fault.size > 0)
        print_unknown(&fault);
    else if (refusal->number == 9 && fault.place.number > 1)
        print_extra(&fault);
    else
        return false;
    return true;
}
