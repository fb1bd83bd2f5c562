/* The commands of a text, as bytes. */
#ifndef TEXT_COMMAND_H
#define TEXT_COMMAND_H

#include "content.h"
#include "plan_form.h"
#include "text.h"

/* What is wrong with a line. */
enum text_cause {
    TEXT_STANDS,     /* nothing */
    TEXT_NO_COMMAND, /* its first word is no command's name */
    TEXT_NO_NUMBER,  /* an operand is no number */
    TEXT_COUNT,      /* it has too many or too few operands */
    TEXT_TOO_GREAT,  /* a number is more than its operand's bytes can hold */
    TEXT_AGAIN       /* a mask has a member twice */
};

/* A cause, and what it is about. */
struct text_fault {
    enum text_cause cause;
    size_t line;                  /* its number, counted from 1 */
    const struct plan_form *form; /* of the line's command; null if it is none */
    struct plan_operand operand;  /* that has the faulty number */
    struct text_part word;        /* the faulty word */
    size_t count;                 /* of the operands */
};

/* Puts the commands of a text into a plan, as many as there is room for; answers the first faulty line's fault. */
struct text_fault text_commands(const struct text *text, struct content *plan);

/* The number of the line with a command, which is counted from 1; 0 if the text has no such command. */
size_t text_line_of(const struct text *text, size_t number);

/* Says on standard error what is wrong with a line. */
void text_trouble(const struct text_fault *fault);

#endif
