/* The commands of a plan as text. */
#ifndef PLAN_TEXT_H
#define PLAN_TEXT_H

#include <stdint.h>
#include <stdio.h>

/* Prints a whole command: its name and its operands, a space before each, a mask as its members. */
void plan_print_command(FILE *out, const uint8_t *command);

#endif
