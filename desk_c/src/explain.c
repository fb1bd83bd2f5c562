/* The command explain. */
#include "commands.h"
#include "content.h"
#include "refusal.h"

/* Prints the weekly listing that List writes of a sheet, or the refusal in words. */
static enum status print_listing(const struct content *plan, const struct content *sheet)
{
    uint8_t text[POOL_LISTING_MAX];
    uint64_t answer = pool_list(plan->at, plan->length, sheet->at, sheet->length, text, sizeof text);

    if (pool_refused(answer))
        return refuse(stdout, answer, plan, sheet);
    fwrite(text, 1, (size_t)answer, stdout);
    return STATUS_DONE;
}

/* Explains a plan by the sheet that Build makes of it. */
static enum status explain_plan(const struct content *plan)
{
    struct content sheet = {.length = 0};
    uint64_t answer = pool_build(plan->at, plan->length, sheet.at, sizeof sheet.at);

    if (pool_refused(answer))
        return refuse(stdout, answer, plan, NULL);
    sheet.length = (size_t)answer;
    return print_listing(plan, &sheet);
}

/* Explains a plan by a sheet that is given. */
static enum status explain_sheet(const struct content *plan, const char *path)
{
    struct content sheet;

    if (!content_read_sheet(&sheet, path))
        return STATUS_TROUBLE;
    return print_listing(plan, &sheet);
}

/* explain PLAN [SHEET]: prints the weekly listing or the refusal in words. */
enum status command_explain(char *const arguments[])
{
    struct content plan;

    if (!content_read_plan(&plan, arguments[0]))
        return STATUS_TROUBLE;
    return arguments[1] == NULL ? explain_plan(&plan) : explain_sheet(&plan, arguments[1]);
}
