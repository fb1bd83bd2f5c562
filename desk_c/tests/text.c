/* Draws plans and commands, writes them as texts in several ways and reads these again. */
#include "compare.h"
#include "draw.h"
#include "plan.h"
#include "plan_text.h"
#include "set.h"
#include "text_command.h"

#include <inttypes.h>
#include <stdlib.h>
#include <string.h>

/* The most members of a mask. */
#define MEMBERS_MAX (8 * PLAN_OPERAND_SIZE_MAX)

/* What was tried. */
struct tally {
    size_t commands; /* of the drawn plans, with and without regard to what Read accepts */
    size_t damaged;  /* texts with a byte changed */
    size_t causes[TEXT_AGAIN + 1]; /* the damaged texts by what is then wrong */
};

static struct tally tally;
static struct content plan, again;
static struct text text;

/* Puts a drawn command with drawn bytes as operands into the plan. */
static void draw_command(void)
{
    uint8_t byte = (uint8_t)(PLAN_START + draw(PLAN_LAST));
    size_t size = plan_size(plan_form(byte));

    plan.at[plan.length++] = byte;
    while (size-- > 0)
        plan.at[plan.length++] = (uint8_t)draw(256);
}

/* Makes the plan of drawn commands, whether Read accepts it or not. */
static void draw_commands(void)
{
    unsigned count = draw(40);

    plan.length = 0;
    while (count-- > 0)
        draw_command();
}

/* Prints the plan's commands to a file, as show does. */
static void print_plain(FILE *out, const struct content *content)
{
    struct plan_place place = plan_first();

    while (plan_next(content, &place)) {
        plan_print_command(out, content->at + place.previous);
        fputs("\n", out);
    }
}

/* Prints one of these strings. */
static void print_one(FILE *out, const char *const *strings, unsigned count)
{
    fputs(strings[draw(count)], out);
}

/* Prints what separates words. */
static void print_space(FILE *out)
{
    static const char *const spaces[] = {" ", " ", "  ", "\t", "\r", " \t\r "};

    print_one(out, spaces, sizeof spaces / sizeof spaces[0]);
}

/* Prints a number with zeros before it. */
static void print_number(FILE *out, uint64_t number)
{
    static const char *const zeros[] = {"", "", "", "0", "00", "000000000000000000000000000000000000000000"};

    print_space(out);
    print_one(out, zeros, sizeof zeros / sizeof zeros[0]);
    fprintf(out, "%" PRIu64, number);
}

/* Lists the members of a mask, rising; answers their number. */
static size_t list_members(const uint8_t *mask, size_t size, size_t *members)
{
    size_t count = 0;

    for (size_t number = 0; number < 8 * size; number++)
        if (set_has(mask, number))
            members[count++] = number;
    return count;
}

/* Prints the members of a mask in a drawn order. */
static void print_mask(FILE *out, const uint8_t *mask, size_t size)
{
    size_t members[MEMBERS_MAX], count = list_members(mask, size, members);

    for (; count > 0; count--) {
        size_t which = draw((unsigned)count);

        print_number(out, members[which]);
        members[which] = members[count - 1];
    }
}

/* Prints the operands of a command. */
static void print_operands(FILE *out, const uint8_t *command)
{
    const struct plan_form *form = plan_form(command[0]);
    const uint8_t *bytes = command + 1;

    for (size_t i = 0; i < plan_count(form); i++) {
        struct plan_operand operand = plan_operand(form->operands[i]);

        if (operand.is_mask)
            print_mask(out, bytes, operand.size);
        else
            print_number(out, plan_value(bytes, operand.size));
        bytes += operand.size;
    }
}

/* Prints the plan's commands with spaces, comments and blank lines among them. */
static void print_fancy(FILE *out, const struct content *content)
{
    static const char *const before[] = {"", "", " ", "\t", "\n", "# START 1 2\n", "\r\n \r\n#\n", "#\1\377\n\n"};
    static const char *const after[] = {"\n", "\n", "\r\n", " \t\n", "# END\n", " #\n", "\t#\377#\r\n", "\n\n"};
    struct plan_place place = plan_first();

    while (plan_next(content, &place)) {
        print_one(out, before, sizeof before / sizeof before[0]);
        fputs(plan_form(content->at[place.previous])->name, out);
        print_operands(out, content->at + place.previous);
        print_one(out, after, sizeof after / sizeof after[0]);
    }
}

/* Makes the text of what a function prints of the plan. */
static void make_text(void (*print)(FILE *, const struct content *), const struct content *content)
{
    FILE *out = fmemopen(text.at, sizeof text.at, "w");

    if (out == NULL)
        exit(2);
    print(out, content);
    fflush(out);
    text.length = (size_t)ftell(out);
    fclose(out);
}

/* Tests that the text gives the bytes of the plan. */
static void try_text(const char *what, const struct content *wanted)
{
    struct text_fault fault = text_commands(&text, &again);

    expect(what, TEXT_STANDS, fault.cause);
    expect(what, wanted->length, again.length);
    expect(what, 0, (uint64_t)(memcmp(wanted->at, again.at, wanted->length) != 0));
}

/* The number of line feeds in the text before an offset. */
static size_t feeds_before(size_t offset)
{
    size_t count = 0;

    for (size_t i = 0; i < offset; i++)
        count += text.at[i] == '\n';
    return count;
}

/* Tests that each command of the plain text stands on the line of its number, and that there is none beyond. */
static void try_lines(size_t commands)
{
    for (size_t number = 1; number <= commands; number++)
        expect("the line of a command", number, text_line_of(&text, number));
    expect("the line of a command beyond", 0, text_line_of(&text, commands + 1));
}

/* Tests a text that stands: printed plainly, its plan gives its bytes. */
static void try_standing(void)
{
    static struct content changed;

    changed = again;
    make_text(print_plain, &changed);
    try_text("a damaged text that stands", &changed);
}

/* Tests the text with a drawn byte changed to one that texts have: what is then wrong is on its line or right after. */
static void try_damaged(void)
{
    static const char bytes[] = " \t\r\n#0123456789ASTRE\1\377";
    size_t offset = draw((unsigned)text.length), line = feeds_before(offset) + 1;
    struct text_fault fault;

    text.at[offset] = (uint8_t)bytes[draw(sizeof bytes)];
    fault = text_commands(&text, &again);
    if (fault.cause == TEXT_STANDS)
        try_standing();
    else
        expect("the line of a damage", line, fault.line > line ? fault.line - 1 : fault.line);
    tally.causes[fault.cause]++;
    tally.damaged++;
}

/* Tries the plan in each way. */
static void try_plan(void)
{
    size_t commands = plan_at(&plan, plan.length).number - 1;

    make_text(print_plain, &plan);
    try_text("the plain text", &plan);
    try_lines(commands);
    for (int i = 0; i < 4; i++) {
        make_text(print_fancy, &plan);
        try_text("the text with spaces and comments", &plan);
        if (text.length > 0)
            try_damaged();
    }
    tally.commands += commands;
    compared.plans++;
}

/* text COUNT draws that many plans and as many lists of commands; it prints each failure, and how much was tried. */
int main(int argc, char *argv[])
{
    struct model model;
    size_t count;

    if (argc != 2)
        return 2;
    count = strtoul(argv[1], NULL, 10);
    while (compared.plans < 2 * count) {
        draw_plan(&plan, &model);
        try_plan();
        draw_commands();
        try_plan();
    }
    printf("%zu plans, %zu commands, %zu damaged (", compared.plans, tally.commands, tally.damaged);
    for (size_t cause = TEXT_STANDS; cause <= TEXT_AGAIN; cause++)
        printf(cause == TEXT_STANDS ? "%zu" : " %zu", tally.causes[cause]);
    printf("), %zu failures\n", compared.failures);
    return fflush(stdout) == 0 ? 0 : 2;
}
