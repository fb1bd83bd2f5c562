/* The desk program: finds the command that is asked for and runs it. */
#include "commands.h"
#include "process.h"

#include <stdio.h>
#include <string.h>

/* A command's name, how many arguments it takes, what the first and the second are, and what runs it. */
struct command {
    const char *name;
    int least;
    int most;
    const char *first;
    const char *second;
    enum status (*run)(char *const arguments[]);
};

static const struct command commands[] = {
    {"build", 2, 2, "plan", "sheet", command_build},
    {"check", 2, 2, "plan", "sheet", command_check},
    {"page", 3, 3, "plan", "sheet", command_page},
    {"explain", 1, 2, "plan", "sheet", command_explain},
    {"write", 2, 2, "text", "plan", command_write},
    {"show", 1, 1, "plan", NULL, command_show},
};

static const char usage[] =
    "usage: desk build PLAN SHEET       build the sheet of a plan and write it to the file SHEET\n"
    "       desk check PLAN SHEET       tell whether the sheet is right for the plan\n"
    "       desk page PLAN SHEET TEAM   print one team's page of an accepted sheet\n"
    "       desk explain PLAN [SHEET]   print the weekly listing, or what is wrong in words\n"
    "       desk write TEXT PLAN        write the plan of a text to the file PLAN\n"
    "       desk show PLAN              print a plan as text, or what is wrong in words\n"
    "PLAN (for write: TEXT) may be - for standard input. "
    "Exit status: 0 done, 1 refused, 2 usage, text or file trouble.\n";

/* Finds a command by its name; null if there is none. */
static const struct command *find_command(const char *name)
{
    for (size_t i = 0; i < sizeof commands / sizeof commands[0]; i++)
        if (strcmp(commands[i].name, name) == 0)
            return &commands[i];
    return NULL;
}

/* Says how the program is used, as trouble. */
static enum status misused(void)
{
    fputs(usage, stderr);
    return STATUS_TROUBLE;
}

/* Says that only a command's first argument may be standard input. */
static enum status misplaced_input(const struct command *command)
{
    fprintf(stderr, "desk: cannot use - as the %s: Only the %s may be standard input\n", command->second,
            command->first);
    return STATUS_TROUBLE;
}

/* Runs what the arguments ask for. */
static enum status run(int count, char *const arguments[])
{
    const struct command *command;

    if (count < 2)
        return misused();
    if (strcmp(arguments[1], "--help") == 0) {
        fputs(usage, stdout);
        return STATUS_DONE;
    }
    command = find_command(arguments[1]);
    if (command == NULL || count - 2 < command->least || count - 2 > command->most)
        return misused();
    if (count > 3 && strcmp(arguments[3], "-") == 0)
        return misplaced_input(command);
    return command->run(arguments + 2);
}

/* Readies the process, runs the command and writes out its results. */
int main(int argc, char *argv[])
{
    if (!process_begin())
        return STATUS_TROUBLE;
    return (int)process_end(run(argc, argv));
}
