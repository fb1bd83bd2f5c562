/* The command write. */
#include "commands.h"
#include "output.h"
#include "plan.h"
#include "plan_text.h"
#include "refusal.h"
#include "text_command.h"

/* Prints the line of the text with the refused command; where the plan ends too early, that of the last one. */
static void print_line(const struct text *text, const struct content *plan, size_t place)
{
    struct plan_place command = plan_at(plan, place);

    if (plan->length == 0) {
        puts("The text has no commands.");
    } else if (command.offset < plan->length) {
        printf("Line %zu of the text: ", text_line_of(text, command.number));
        plan_print_command(stdout, plan->at + command.offset);
        puts("");
    } else {
        printf("Line %zu of the text, the last command: ", text_line_of(text, command.number - 1));
        plan_print_command(stdout, plan->at + command.previous);
        puts("");
    }
}

/* write TEXT PLAN: replaces the file by the plan of a text. */
enum status command_write(char *const arguments[])
{
    static struct text text;
    struct content plan;
    struct output output = {&plan, "the plan", &text.identity, "It is the text's own file"};
    struct text_fault fault;
    uint64_t answer;

    if (!text_read(&text, arguments[0]))
        return STATUS_TROUBLE;
    fault = text_commands(&text, &plan);
    if (fault.cause != TEXT_STANDS) {
        text_trouble(&fault);
        return STATUS_TROUBLE;
    }
    answer = pool_worth(plan.at, plan.length, 0, 0);
    if (!pool_refused(answer))
        return output_write(&output, arguments[1]);
    refuse(stdout, answer, &plan, NULL);
    print_line(&text, &plan, pool_place(answer));
    return STATUS_REFUSED;
}
