/* The command build. */
#include "commands.h"
#include "content.h"
#include "output.h"
#include "refusal.h"

/* build PLAN SHEET: builds the plan's sheet and replaces the file. */
enum status command_build(char *const arguments[])
{
    struct content plan, sheet = {.length = 0};
    struct output output = {&sheet, "the sheet", &plan.identity, "It is the plan's own file"};
    uint64_t answer;

    if (!content_read_plan(&plan, arguments[0]))
        return STATUS_TROUBLE;
    answer = pool_build(plan.at, plan.length, sheet.at, sizeof sheet.at);
    if (pool_refused(answer))
        return refuse(stdout, answer, &plan, NULL);
    sheet.length = (size_t)answer;
    return output_write(&output, arguments[1]);
}
