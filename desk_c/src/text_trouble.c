/* What is wrong with a line of a text, in words. */
#include "text_command.h"

/* How many bytes of a word are printed. */
#define PRINTED_MAX 32

/* Prints a byte of a word: a printable one of ASCII as it is, another in hexadecimal. */
static void print_byte(uint8_t byte)
{
    fprintf(stderr, byte > ' ' && byte <= '~' ? "%c" : "\\x%02X", byte);
}

/* Prints a word, or the beginning of a long one. */
static void print_word(struct text_part word)
{
    for (size_t i = 0; i < word.length && i < PRINTED_MAX; i++)
        print_byte(word.at[i]);
    if (word.length > PRINTED_MAX)
        fputs("...", stderr);
}

/* Prints the names of the commands. */
static void print_names(void)
{
    fputs("commands are ", stderr);
    for (uint8_t byte = PLAN_START; byte <= PLAN_LAST; byte++) {
        const char *after = byte + 1 < PLAN_LAST ? ", " : byte < PLAN_LAST ? " and " : "";

        fprintf(stderr, "%s%s", plan_form(byte)->name, after);
    }
}

/* Prints how many numbers a command takes: one for each operand, any number for a mask. */
static void print_takes(const struct plan_form *form)
{
    bool has_mask = plan_has_mask(form);
    size_t least = plan_count(form) - has_mask;

    fprintf(stderr, "%s takes ", form->name);
    if (least == 0)
        fputs("no", stderr);
    else
        fprintf(stderr, "%zu", least);
    fprintf(stderr, " number%s%s, found ", least == 1 ? "" : "s", has_mask ? " or more" : "");
}

/* Prints which numbers an operand may be, and the faulty one. */
static void print_too_great(const struct text_fault *fault)
{
    fprintf(stderr, "%s takes ", fault->form->name);
    plan_print_range(stderr, fault->operand);
    fprintf(stderr, " as %s, found ", fault->operand.name);
    print_word(fault->word);
}

/* Prints a word in quotes. */
static void print_quoted(struct text_part word)
{
    fputs("'", stderr);
    print_word(word);
    fputs("'", stderr);
}

/* Prints what a line should have and what was found. */
static void print_cause(const struct text_fault *fault)
{
    switch (fault->cause) {
    case TEXT_NO_COMMAND:
        fputs("expected a command, found ", stderr);
        print_quoted(fault->word);
        fputs("; ", stderr);
        print_names();
        break;
    case TEXT_NO_NUMBER:
        print_takes(fault->form);
        print_quoted(fault->word);
        break;
    case TEXT_COUNT:
        print_takes(fault->form);
        fprintf(stderr, "%zu", fault->count);
        break;
    case TEXT_TOO_GREAT:
        print_too_great(fault);
        break;
    case TEXT_AGAIN:
        fprintf(stderr, "%s takes each of its %s once, found ", fault->form->name, fault->operand.name);
        print_word(fault->word);
        fputs(" again", stderr);
        break;
    case TEXT_STANDS:
        break;
    }
}

/* Says on standard error what is wrong with a line. */
void text_trouble(const struct text_fault *fault)
{
    fprintf(stderr, "desk: line %zu: ", fault->line);
    print_cause(fault);
    fputs("\n", stderr);
}
