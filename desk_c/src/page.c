/* The command page. */
#include "commands.h"
#include "content.h"
#include "number.h"
#include "plan.h"
#include "refusal.h"
#include "set.h"
#include "sheet.h"

#include <string.h>

/* Reads a team's number: decimal digits, where any number too great for a team is as good as another. */
static bool read_team(const char *text, size_t *team)
{
    uint64_t number;

    if (!number_read((const uint8_t *)text, strlen(text), &number))
        return false;
    *team = number < SIZE_MAX ? (size_t)number : SIZE_MAX;
    return true;
}

/* Prints a team's page, a line for each command: its SHARE, then its PARTs. */
static void print_page(const uint8_t *page, size_t length)
{
    printf("SHARE team %u share %u set", page[1], page[2]);
    set_print(stdout, page + 3, SHEET_SET_SIZE);
    puts("");
    for (size_t part = SHEET_SHARE_SIZE; part < length; part += SHEET_PART_SIZE)
        printf("PART instrument %u part %u\n", page[part + 1], page[part + 2]);
}

/* Prints the page of a team in the plan; to another team says that its page is empty. */
static enum status hand_out(const struct content *plan, const struct content *sheet, size_t team, const char *name)
{
    uint64_t page = pool_page(plan->at, plan->length, sheet->at, sheet->length, team);
    size_t teams = plan_teams(plan);

    if (page != POOL_NO_PAGE) {
        print_page(sheet->at + pool_page_offset(page), pool_page_length(page));
        return STATUS_DONE;
    }
    fprintf(stderr, "desk: team %s is not in the plan, its page is empty; the plan has %zu team%s, numbered from 0\n",
            name, teams, teams == 1 ? "" : "s");
    return STATUS_REFUSED;
}

/* page PLAN SHEET TEAM: prints one team's page of an accepted sheet. */
enum status command_page(char *const arguments[])
{
    struct content plan, sheet;
    uint64_t answer;
    size_t team;

    if (!read_team(arguments[2], &team)) {
        fprintf(stderr, "desk: cannot use '%s' as a team: It is not a number\n", arguments[2]);
        return STATUS_TROUBLE;
    }
    if (!content_read_plan(&plan, arguments[0]) || !content_read_sheet(&sheet, arguments[1]))
        return STATUS_TROUBLE;
    answer = pool_check(plan.at, plan.length, sheet.at, sheet.length);
    if (answer != POOL_ACCEPTED)
        return refuse(stderr, answer, &plan, &sheet);
    return hand_out(&plan, &sheet, team, arguments[2]);
}
