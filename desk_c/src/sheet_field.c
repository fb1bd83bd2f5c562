/* The fields of a sheet: which command and operand stands at an offset, and which bytes are allowed there. */
#include "sheet_field.h"

#include "plan.h"

/* What a byte of a sheet belongs to. */
struct field {
    enum sheet_byte command;
    size_t index;      /* of the byte in its command, 0 for the command byte */
    size_t team;       /* of a SHARE or PART */
    size_t instrument; /* of a GIVE or PART */
};

/* What a byte is for, and which values it may have: AWAY_ZERO is the 0 in the page of a team that is away. */
struct rule {
    const char *operand;
    enum { ONE_VALUE, TEAM_OR_POOL, PART_NUMBER, SET_BYTE, ANY_BYTE, AWAY_ZERO } values;
    size_t value; /* the one value */
};

/* Finds the command within a team's SHARE and PARTs, from an offset counted from that SHARE. */
static struct field find_in_page(size_t team, size_t offset)
{
    if (offset < SHEET_SHARE_SIZE)
        return (struct field){.command = SHEET_SHARE, .team = team, .index = offset};
    offset -= SHEET_SHARE_SIZE;
    return (struct field){
        .command = SHEET_PART, .team = team, .instrument = offset / SHEET_PART_SIZE, .index = offset % SHEET_PART_SIZE};
}

/* Finds the command that an offset belongs to. */
static struct field find_field(struct sheet_shape shape, size_t offset)
{
    size_t pages = sheet_share(shape, 0);
    size_t page_size = sheet_share(shape, 1) - pages;

    if (offset < sheet_give(0))
        return (struct field){.command = SHEET_HEAD, .index = offset};
    if (offset < sheet_bound(shape))
        return (struct field){.command = SHEET_GIVE,
                              .instrument = (offset - sheet_give(0)) / SHEET_GIVE_SIZE,
                              .index = (offset - sheet_give(0)) % SHEET_GIVE_SIZE};
    if (offset < pages)
        return (struct field){.command = SHEET_BOUND, .index = offset - sheet_bound(shape)};
    if (offset < sheet_share(shape, shape.teams))
        return find_in_page((offset - pages) / page_size, (offset - pages) % page_size);
    return (struct field){.command = SHEET_END};
}

/* The rule of a byte of HEAD: m, n and the total. */
static struct rule head_rule(struct field field, struct sheet_shape shape)
{
    if (field.index == 1)
        return (struct rule){"m", ONE_VALUE, shape.instruments};
    if (field.index == 2)
        return (struct rule){"n", ONE_VALUE, shape.teams};
    return (struct rule){"total", ANY_BYTE, 0};
}

/* The rule of a byte of SHARE: the team, the share and the set. */
static struct rule share_rule(struct field field)
{
    if (field.index == 1)
        return (struct rule){"team", ONE_VALUE, field.team};
    if (field.index == 2)
        return (struct rule){"share", ANY_BYTE, 0};
    return (struct rule){"set", SET_BYTE, 0};
}

/* The rule of a byte of a sheet. */
static struct rule find_rule(struct field field, struct sheet_shape shape)
{
    if (field.index == 0)
        return (struct rule){"command byte", ONE_VALUE, field.command};
    switch (field.command) {
    case SHEET_HEAD:
        return head_rule(field, shape);
    case SHEET_BOUND:
        return (struct rule){"set", SET_BYTE, 0};
    case SHEET_SHARE:
        return share_rule(field);
    case SHEET_GIVE:
        if (field.index == 2)
            return (struct rule){"team", TEAM_OR_POOL, 0};
        break;
    case SHEET_PART:
        if (field.index == 2)
            return (struct rule){"part", PART_NUMBER, 0};
        break;
    case SHEET_END:
        break;
    }
    return (struct rule){"instrument", ONE_VALUE, field.instrument};
}

/* Tells whether a field stands in the page of a team that is away. */
static bool is_away(struct field field, const struct content *plan)
{
    return (field.command == SHEET_SHARE || field.command == SHEET_PART) && !plan_is_present(plan, field.team);
}

/* Prints a command of a sheet: its name, and its team and instrument if it has them. */
static void print_command(FILE *out, struct field field)
{
    static const char *const names[] = {"HEAD", "GIVE", "BOUND", "SHARE", "PART", "END"};

    fputs(names[field.command - SHEET_HEAD], out);
    if (field.command == SHEET_SHARE || field.command == SHEET_PART)
        fprintf(out, " of team %zu", field.team);
    if (field.command == SHEET_GIVE || field.command == SHEET_PART)
        fprintf(out, " for instrument %zu", field.instrument);
}

/* Prints which field the byte at an offset of a sheet for this plan is. */
void sheet_field_print(FILE *out, const struct content *plan, size_t offset)
{
    struct sheet_shape shape = sheet_shape(plan);
    struct field field = find_field(shape, offset);

    fprintf(out, "the %s of ", find_rule(field, shape).operand);
    print_command(out, field);
}

/* Prints which bytes are allowed at an offset of a sheet for this plan. */
void sheet_field_print_allowed(FILE *out, const struct content *plan, size_t offset)
{
    struct sheet_shape shape = sheet_shape(plan);
    struct field field = find_field(shape, offset);
    struct rule rule = find_rule(field, shape);

    if (is_away(field, plan) && rule.values != ONE_VALUE)
        rule.values = AWAY_ZERO;
    switch (rule.values) {
    case ONE_VALUE:
        fprintf(out, "it has to be %02zX", rule.value);
        break;
    case AWAY_ZERO:
        fprintf(out, "team %zu is away (0 channels), so it has to be 00", field.team);
        break;
    case SET_BYTE:
        fprintf(out, "it has a bit that stands for none of the %zu instruments", shape.instruments);
        break;
    case ANY_BYTE:
        fputs("any byte is allowed", out);
        break;
    case TEAM_OR_POOL:
        fprintf(out, "allowed is 00 to %02zX, or FF for the pool", shape.teams - 1);
        break;
    case PART_NUMBER:
        fprintf(out, "allowed is 00 to %02zX, one part for each present team", plan_present(plan) - 1);
        break;
    }
}
