/* The commands of a text, as bytes. */
#include "text_command.h"

#include "number.h"
#include "set.h"

#include <string.h>

/* A line's command as bytes; none for a blank line. */
struct command {
    uint8_t bytes[PLAN_COMMAND_ROOM];
    size_t size;
};

/* Looks for the first of the words that is no number. */
static bool find_no_number(struct text_part words, struct text_fault *fault)
{
    uint64_t number;

    while (text_next_word(&words, &fault->word))
        if (!number_read(fault->word.at, fault->word.length, &number)) {
            fault->cause = TEXT_NO_NUMBER;
            return true;
        }
    return false;
}

/* Compares the number of the words with what the command takes: a word for each operand, any number for a mask. */
static bool find_wrong_count(struct text_part words, struct text_fault *fault)
{
    bool has_mask = plan_has_mask(fault->form);
    size_t least = plan_count(fault->form) - has_mask;

    fault->count = text_count_words(words);
    if (fault->count == least || (has_mask && fault->count > least))
        return false;
    fault->cause = TEXT_COUNT;
    return true;
}

/* Puts a number into bytes, the low one first; answers what is left of it. */
static uint64_t put_value(uint8_t *bytes, size_t size, uint64_t number)
{
    for (size_t i = 0; i < size; i++) {
        bytes[i] = (uint8_t)(number & 0xFF);
        number >>= 8;
    }
    return number;
}

/* Takes a word, which is a number, as the operand's bytes; answers false if these cannot hold it. */
static bool put_number(uint8_t *bytes, struct text_part *words, struct text_fault *fault)
{
    uint64_t number;

    text_next_word(words, &fault->word);
    number_read(fault->word.at, fault->word.length, &number);
    if (put_value(bytes, fault->operand.size, number) == 0)
        return true;
    fault->cause = TEXT_TOO_GREAT;
    return false;
}

/* Takes a number as a member of a mask; answers false if the bytes cannot hold it or have it already. */
static bool put_member(uint8_t *bytes, uint64_t number, struct text_fault *fault)
{
    if (number >= 8 * fault->operand.size)
        fault->cause = TEXT_TOO_GREAT;
    else if (set_has(bytes, (size_t)number))
        fault->cause = TEXT_AGAIN;
    else
        set_put(bytes, (size_t)number);
    return fault->cause == TEXT_STANDS;
}

/* Takes the words that are left, which are numbers, as the members of a mask; answers false at a wrong one. */
static bool put_mask(uint8_t *bytes, struct text_part *words, struct text_fault *fault)
{
    uint64_t number;

    memset(bytes, 0, fault->operand.size);
    while (text_next_word(words, &fault->word)) {
        number_read(fault->word.at, fault->word.length, &number);
        if (!put_member(bytes, number, fault))
            return false;
    }
    return true;
}

/* Takes the words, as many numbers as the command takes, as its operands; answers false at a wrong one. */
static bool put_operands(struct command *command, struct text_part words, struct text_fault *fault)
{
    for (size_t i = 0; i < plan_count(fault->form); i++) {
        uint8_t *bytes = command->bytes + command->size;

        fault->operand = plan_operand(fault->form->operands[i]);
        if (!(fault->operand.is_mask ? put_mask : put_number)(bytes, &words, fault))
            return false;
        command->size += fault->operand.size;
    }
    return true;
}

/* Takes the words of a line as a command; answers what is wrong with the line. */
static struct text_fault put_command(struct command *command, const struct text_line *line)
{
    struct text_fault fault = {.line = line->number};
    struct text_part words = line->words;

    command->size = 0;
    if (!text_next_word(&words, &fault.word))
        return fault;
    command->bytes[command->size++] = plan_byte(fault.word.at, fault.word.length);
    fault.form = plan_form(command->bytes[0]);
    if (fault.form == NULL)
        fault.cause = TEXT_NO_COMMAND;
    else if (!find_no_number(words, &fault) && !find_wrong_count(words, &fault))
        put_operands(command, words, &fault);
    return fault;
}

/* Puts a command at the end of a plan. Where there is no room for it, Read refuses the plan before that place. */
static void append(struct content *plan, const struct command *command)
{
    if (command->size > sizeof plan->at - plan->length)
        return;
    memcpy(plan->at + plan->length, command->bytes, command->size);
    plan->length += command->size;
}

/* Puts the commands of a text into a plan, as many as there is room for; answers the first faulty line's fault. */
struct text_fault text_commands(const struct text *text, struct content *plan)
{
    struct text_line line = text_start();
    struct text_fault fault = {.cause = TEXT_STANDS};
    struct command command;

    plan->length = 0;
    while (text_next_line(text, &line)) {
        fault = put_command(&command, &line);
        if (fault.cause != TEXT_STANDS)
            break;
        append(plan, &command);
    }
    return fault;
}

/* The number of the line with a command, which is counted from 1; 0 if the text has no such command. */
size_t text_line_of(const struct text *text, size_t number)
{
    struct text_line line = text_start();
    struct text_part word;

    while (text_next_line(text, &line)) {
        if (text_next_word(&line.words, &word))
            number--;
        if (number == 0)
            return line.number;
    }
    return 0;
}
