/* The command show. */
#include "commands.h"
#include "content.h"
#include "plan.h"
#include "plan_text.h"
#include "refusal.h"

/* Prints the whole commands of a plan before an offset, a line for each. */
static void print_commands(const struct content *plan, size_t end)
{
    struct plan_place place = plan_first();

    while (place.offset < end && plan_next(plan, &place)) {
        plan_print_command(stdout, plan->at + place.previous);
        puts("");
    }
}

/* show PLAN: prints the plan as text; of a refused plan what stands before the fault, and the refusal in words. */
enum status command_show(char *const arguments[])
{
    struct content plan;
    uint64_t answer;

    if (!content_read_plan(&plan, arguments[0]))
        return STATUS_TROUBLE;
    answer = pool_worth(plan.at, plan.length, 0, 0);
    print_commands(&plan, pool_refused(answer) ? pool_place(answer) : plan.length);
    return pool_refused(answer) ? refuse(stdout, answer, &plan, NULL) : STATUS_DONE;
}
