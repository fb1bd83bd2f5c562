/* What is wrong with a buffer or a sheet, in words: refusals 10 to 16. */
#include "plan.h"
#include "plan_days.h"
#include "refusal.h"
#include "sheet.h"
#include "sheet_field.h"

/* A refused sheet, its shape as the plan has it, and the refusal's place: an offset or a team. */
struct subject {
    FILE *out;
    const struct content *plan;
    const struct content *sheet;
    struct sheet_shape shape;
    size_t place;
};

/* 10: the lent buffer is too short: for the listing where a sheet was given, else for the sheet. */
static void print_short_buffer(FILE *out, const struct refusal *refusal)
{
    const char *written = refusal->sheet == NULL ? "sheet" : "listing";

    fprintf(out, "The buffer lent for the %s is too short; the %s has %zu bytes.", written, written, refusal->place);
}

/* 11: the length is not the plan's L. */
static void print_wrong_length(const struct subject *subject)
{
    bool whole = subject->sheet->length < SHEET_READ_MAX;

    fprintf(subject->out, "The sheet has %s%zu byte%s; for this plan, with m = %zu and n = %zu, it has to have %zu.",
            whole ? "" : "at least ", subject->sheet->length, subject->sheet->length == 1 ? "" : "s",
            subject->shape.instruments, subject->shape.teams, sheet_length(subject->shape));
}

/* 12: a byte is not what form, order or range allows. */
static void print_wrong_byte(const struct subject *subject)
{
    fprintf(subject->out, "Byte %zu of the sheet, ", subject->place);
    sheet_field_print(subject->out, subject->plan, subject->place);
    fprintf(subject->out, ", is %02X; ", subject->sheet->at[subject->place]);
    sheet_field_print_allowed(subject->out, subject->plan, subject->place);
    fputs(".", subject->out);
}

/* What a team of a kind may hold, channels aside. */
static const char *rule(uint8_t kind)
{
    if (kind == PLAN_CAPS)
        return "A CAPS team may hold only instruments that were PUT, no more of a class than its cap";
    if (kind == PLAN_LOOPS)
        return "A LOOPS team may hold only instruments with a SPAN, none of which close a loop";
    return "A MOUNTS team may hold only instruments with a FIT, each on a mount of its own that it fits";
}

/* The lowest instrument given to a team whose days do not lie within its shelf days; their count if there is none. */
static size_t find_off_shelf(const struct subject *subject)
{
    size_t instrument = 0;

    while (instrument < subject->shape.instruments &&
           (sheet_owner(subject->sheet, instrument) != subject->place ||
            plan_is_usable(subject->plan, subject->place, instrument)))
        instrument++;
    return instrument;
}

/* The lowest instrument given to a team that is glued to any team; their count if there is none. */
static size_t find_glued(const struct subject *subject)
{
    size_t instrument = 0;

    while (instrument < subject->shape.instruments &&
           (sheet_owner(subject->sheet, instrument) != subject->place ||
            plan_glue_team(subject->plan, instrument) == GLUE_NONE))
        instrument++;
    return instrument;
}

/* Prints what a team may hold, and which glued instruments count with it. */
static void print_rule(const struct subject *subject)
{
    fprintf(subject->out, "%s, and no more than its channels.", rule(plan_kind(subject->plan, subject->place)));
    if (plan_glue_count(subject->plan, subject->place) == 0)
        return;
    fputs(" The instruments glued to it count too:", subject->out);
    plan_print_glued(subject->out, subject->plan, subject->place);
    fputs(".", subject->out);
}

/* 13: a team's bundle is not independent. */
static void print_dependent(const struct subject *subject)
{
    size_t glued = find_glued(subject);
    size_t off_shelf = find_off_shelf(subject);

    fprintf(subject->out, "Team %zu is given the instruments", subject->place);
    sheet_print_held(subject->out, subject->sheet, subject->shape, subject->place);
    fputs(", which are not independent for it. ", subject->out);
    if (glued < subject->shape.instruments)
        fprintf(subject->out, "Instrument %zu is glued to team %zu and stays FF on the sheet.", glued,
                plan_glue_team(subject->plan, glued));
    else if (off_shelf < subject->shape.instruments)
        plan_print_off_shelf(subject->out, subject->plan, subject->place, off_shelf);
    else
        print_rule(subject);
}

/* 14: the total is not the number of given instruments or not what BOUND's set shows. */
static void print_wrong_total(const struct subject *subject)
{
    size_t pool = sheet_count(subject->sheet, subject->shape, SHEET_POOL);
    size_t given = subject->shape.instruments - pool;
    unsigned total = sheet_total(subject->sheet);

    if (given != total) {
        fprintf(subject->out, "HEAD (byte 0) states the total %u, but the number of instruments given to teams is %zu.",
                total, given);
        return;
    }
    fprintf(subject->out,
            "HEAD (byte 0) states the total %u, which the set of BOUND (byte %zu) does not prove greatest. ", total,
            sheet_bound(subject->shape));
    fputs("The instruments outside the set, and the worths of the set to all teams, do not add up to the total.",
          subject->out);
}

/* 15: a team's share is not what its PARTs and its set show. */
static void print_wrong_share(const struct subject *subject)
{
    unsigned share = sheet_share_stated(subject->sheet, subject->shape, subject->place);

    fprintf(subject->out, "The SHARE of team %zu (byte %zu) states the share %u, which is not proved. ", subject->place,
            sheet_share(subject->shape, subject->place), share);
    fprintf(subject->out,
            "One of the parts (p = %zu, one for each present team) is worth less than %u to the team, "
            "or the set does not rule out a greater share.",
            plan_present(subject->plan), share);
}

/* 16: a team holds less than its share. */
static void print_short(const struct subject *subject)
{
    size_t held = sheet_count(subject->sheet, subject->shape, subject->place);

    fprintf(subject->out, "Team %zu is given %zu instrument%s, fewer than its share of %u.", subject->place, held,
            held == 1 ? "" : "s", sheet_share_stated(subject->sheet, subject->shape, subject->place));
}

/* Prints the fault of a sheet of the right length, for the numbers 12 to 16; answers false for another refusal. */
static bool print_right_length(const struct subject *subject, uint64_t number)
{
    bool is_team = subject->place < subject->shape.teams;

    if (number == 12 && subject->place < subject->sheet->length)
        print_wrong_byte(subject);
    else if (number == 13 && is_team)
        print_dependent(subject);
    else if (number == 14)
        print_wrong_total(subject);
    else if (number == 15 && is_team)
        print_wrong_share(subject);
    else if (number == 16 && is_team)
        print_short(subject);
    else
        return false;
    return true;
}

/* Prints what is wrong with the buffer or the sheet, for the numbers 10 to 16; answers false for another refusal. */
bool refusal_print_sheet(FILE *out, const struct refusal *refusal)
{
    struct subject subject = {out, refusal->plan, refusal->sheet, sheet_shape(refusal->plan), refusal->place};

    if (refusal->number == 10) {
        print_short_buffer(out, refusal);
        return true;
    }
    if (refusal->sheet == NULL)
        return false;
    if (refusal->number == 11) {
        print_wrong_length(&subject);
        return true;
    }
    return refusal->sheet->length == sheet_length(subject.shape) && print_right_length(&subject, refusal->number);
}
