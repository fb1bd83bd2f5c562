/* The form of each command of a plan: its name, where it belongs and its operands. All else about a form follows. */
#include "plan_form.h"

#include "pool.h"

#include <inttypes.h>
#include <string.h>

static const struct plan_form forms[] = {
    [PLAN_START] = {"START", PLAN_NO_TEAM, {OPERAND_VERSION, OPERAND_COUNT}},
    [PLAN_CAPS] = {"CAPS", PLAN_NO_TEAM, {OPERAND_CHANNELS}},
    [PLAN_LOOPS] = {"LOOPS", PLAN_NO_TEAM, {OPERAND_CHANNELS}},
    [PLAN_CLASS] = {"CLASS", PLAN_CAPS, {OPERAND_CLASS, OPERAND_CAP}},
    [PLAN_PUT] = {"PUT", PLAN_CAPS, {OPERAND_INSTRUMENT, OPERAND_CLASS}},
    [PLAN_SPAN] = {"SPAN", PLAN_LOOPS, {OPERAND_INSTRUMENT, OPERAND_JOINT, OPERAND_JOINT}},
    [PLAN_END] = {"END", PLAN_NO_TEAM, {OPERAND_NONE}},
    [PLAN_MOUNTS] = {"MOUNTS", PLAN_NO_TEAM, {OPERAND_CHANNELS}},
    [PLAN_FIT] = {"FIT", PLAN_MOUNTS, {OPERAND_INSTRUMENT, OPERAND_MOUNTS}},
    [PLAN_SHELF] = {"SHELF", PLAN_BEFORE_TEAMS, {OPERAND_INSTRUMENT, OPERAND_FROM, OPERAND_TO}},
    [PLAN_DAYS] = {"DAYS", PLAN_ANY_TEAM, {OPERAND_FROM, OPERAND_TO}},
    [PLAN_GLUE] = {"GLUE", PLAN_ANY_TEAM, {OPERAND_INSTRUMENT}},
};

static const struct plan_operand operands[] = {
    [OPERAND_VERSION] = {"version", 1, 1, 2, false},
    [OPERAND_COUNT] = {"instruments", 1, 0, POOL_INSTRUMENTS_MAX + 1, false},
    [OPERAND_CHANNELS] = {"channels", 1, 0, 256, false},
    [OPERAND_CLASS] = {"class", 1, 0, 16, false},
    [OPERAND_CAP] = {"cap", 1, 0, 256, false},
    [OPERAND_INSTRUMENT] = {"instrument", 1, 0, POOL_INSTRUMENTS_MAX, false},
    [OPERAND_JOINT] = {"joint", 1, 0, 40, false},
    [OPERAND_MOUNTS] = {"mounts", 4, 0, 32, true},
    [OPERAND_FROM] = {"from", 2, 0, 65536, false},
    [OPERAND_TO] = {"to", 2, 0, 65536, false},
};

/* The form of a command byte; null if it is no command. */
const struct plan_form *plan_form(uint8_t byte)
{
    return byte >= PLAN_START && byte <= PLAN_LAST ? &forms[byte] : NULL;
}

/* The command byte of a name, given by its bytes and their count; 0 if there is no such command. */
uint8_t plan_byte(const uint8_t *name, size_t length)
{
    for (uint8_t byte = PLAN_START; byte <= PLAN_LAST; byte++)
        if (strlen(forms[byte].name) == length && memcmp(forms[byte].name, name, length) == 0)
            return byte;
    return 0;
}

/* The number of a command's operands. */
size_t plan_count(const struct plan_form *form)
{
    size_t count = 0;

    while (count < PLAN_OPERANDS_MAX && form->operands[count] != OPERAND_NONE)
        count++;
    return count;
}

/* The size of a command's operands, in bytes. */
size_t plan_size(const struct plan_form *form)
{
    size_t size = 0;

    for (size_t i = 0; i < plan_count(form); i++)
        size += operands[form->operands[i]].size;
    return size;
}

/* Tells whether a command's last operand is a mask. */
bool plan_has_mask(const struct plan_form *form)
{
    size_t count = plan_count(form);

    return count > 0 && operands[form->operands[count - 1]].is_mask;
}

/* The name and values of an operand in any plan. */
struct plan_operand plan_operand(enum operand operand)
{
    return operands[operand];
}

/* The value of an operand's bytes, the low one first. */
uint64_t plan_value(const uint8_t *bytes, size_t size)
{
    uint64_t value = 0;

    while (size > 0)
        value = value << 8 | bytes[--size];
    return value;
}

/* Prints the values that an operand may have: one value, or the first and the last. */
void plan_print_range(FILE *out, struct plan_operand operand)
{
    fprintf(out, "%" PRIu64, operand.least);
    if (operand.end - operand.least > 1)
        fprintf(out, " to %" PRIu64, operand.end - 1);
}
