/* The commands of a plan as text. */
#include "plan_text.h"

#include "plan_form.h"
#include "set.h"

#include <inttypes.h>

/* Prints an operand's bytes, a space before each number. */
static void print_operand(FILE *out, struct plan_operand operand, const uint8_t *bytes)
{
    if (operand.is_mask)
        set_print(out, bytes, operand.size);
    else
        fprintf(out, " %" PRIu64, plan_value(bytes, operand.size));
}

/* Prints a whole command: its name and its operands, a space before each, a mask as its members. */
void plan_print_command(FILE *out, const uint8_t *command)
{
    const struct plan_form *form = plan_form(command[0]);
    const uint8_t *bytes = command + 1;

    fputs(form->name, out);
    for (size_t i = 0; i < plan_count(form); i++) {
        struct plan_operand operand = plan_operand(form->operands[i]);

        print_operand(out, operand, bytes);
        bytes += operand.size;
    }
}
