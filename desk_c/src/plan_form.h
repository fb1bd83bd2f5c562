/* The form of each command of a plan: its name, where it belongs and its operands. All else about a form follows. */
#ifndef PLAN_FORM_H
#define PLAN_FORM_H

#include <stdbool.h>
#include <stddef.h>
#include <stdint.h>
#include <stdio.h>

/* The command bytes. */
enum plan_byte {
    PLAN_START = 0x01,
    PLAN_CAPS = 0x02,
    PLAN_LOOPS = 0x03,
    PLAN_CLASS = 0x04,
    PLAN_PUT = 0x05,
    PLAN_SPAN = 0x06,
    PLAN_END = 0x07,
    PLAN_MOUNTS = 0x08,
    PLAN_FIT = 0x09,
    PLAN_SHELF = 0x0A,
    PLAN_DAYS = 0x0B,
    PLAN_GLUE = 0x0C,
    PLAN_LAST = PLAN_GLUE
};

/* What an operand stands for. */
enum operand {
    OPERAND_NONE, /* after a command's last operand */
    OPERAND_VERSION,
    OPERAND_COUNT,
    OPERAND_CHANNELS,
    OPERAND_CLASS,
    OPERAND_CAP,
    OPERAND_INSTRUMENT,
    OPERAND_JOINT,
    OPERAND_MOUNTS,
    OPERAND_FROM,
    OPERAND_TO
};

/* The most operands of a command, the most bytes of an operand, and room for a command with its command byte. */
#define PLAN_OPERANDS_MAX 3
#define PLAN_OPERAND_SIZE_MAX 8
#define PLAN_COMMAND_ROOM (1 + PLAN_OPERANDS_MAX * PLAN_OPERAND_SIZE_MAX)

/* Where a command belongs, if not to teams of one kind: it is not about a team, or it stands as the name says. */
#define PLAN_NO_TEAM 0x00
#define PLAN_BEFORE_TEAMS 0xFE
#define PLAN_ANY_TEAM 0xFF

/* A command's name, where it belongs, and its operands. */
struct plan_form {
    const char *name;
    uint8_t team; /* the command byte that opens the teams it belongs to, or one of the three above */
    enum operand operands[PLAN_OPERANDS_MAX];
};

/*
 * What an operand is called, its size in bytes, and which values it may have: from least up to, not including, end.
 * A mask is a set of numbers, bit k of its bytes for number k: the values are those of its members, and any set is
 * allowed. A command has at most one mask, as its last operand.
 */
struct plan_operand {
    const char *name;
    size_t size;
    uint64_t least;
    uint64_t end;
    bool is_mask;
};

/* The form of a command byte; null if it is no command. */
const struct plan_form *plan_form(uint8_t byte);

/* The command byte of a name, given by its bytes and their count; 0 if there is no such command. */
uint8_t plan_byte(const uint8_t *name, size_t length);

/* The number of a command's operands. */
size_t plan_count(const struct plan_form *form);

/* The size of a command's operands, in bytes. */
size_t plan_size(const struct plan_form *form);

/* Tells whether a command's last operand is a mask. */
bool plan_has_mask(const struct plan_form *form);

/* The name and values of an operand in any plan. */
struct plan_operand plan_operand(enum operand operand);

/* The value of an operand's bytes, the low one first. */
uint64_t plan_value(const uint8_t *bytes, size_t size);

/* Prints the values that an operand may have: one value, or the first and the last. */
void plan_print_range(FILE *out, struct plan_operand operand);

#endif
