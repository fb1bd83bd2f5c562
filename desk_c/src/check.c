/* The command check. */
#include "commands.h"
#include "content.h"
#include "refusal.h"

/* check PLAN SHEET: prints ACCEPTED or the refusal in words. */
enum status command_check(char *const arguments[])
{
    struct content plan, sheet;
    uint64_t answer;

    if (!content_read_plan(&plan, arguments[0]) || !content_read_sheet(&sheet, arguments[1]))
        return STATUS_TROUBLE;
    answer = pool_check(plan.at, plan.length, sheet.at, sheet.length);
    if (answer != POOL_ACCEPTED)
        return refuse(stdout, answer, &plan, &sheet);
    puts("ACCEPTED");
    return STATUS_DONE;
}
