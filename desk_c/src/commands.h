/* The program's commands. Each is given its arguments, ended by a null pointer. */
#ifndef COMMANDS_H
#define COMMANDS_H

#include "status.h"

/* build PLAN SHEET: builds the plan's sheet and replaces the file. */
enum status command_build(char *const arguments[]);

/* check PLAN SHEET: prints ACCEPTED or the refusal in words. */
enum status command_check(char *const arguments[]);

/* page PLAN SHEET TEAM: prints one team's page of an accepted sheet. */
enum status command_page(char *const arguments[]);

/* explain PLAN [SHEET]: prints the weekly listing or the refusal in words. */
enum status command_explain(char *const arguments[]);

/* write TEXT PLAN: replaces the file by the plan of a text. */
enum status command_write(char *const arguments[]);

/* show PLAN: prints the plan as text; of a refused plan what stands before the fault, and the refusal in words. */
enum status command_show(char *const arguments[]);

#endif
