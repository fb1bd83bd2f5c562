/* The text of a plan: its bytes, its lines and their words. */
#include "text.h"

#include <stdio.h>
#include <string.h>

/* Reads a text's file, or standard input for "-"; says what is wrong and answers false if it cannot. */
bool text_read(struct text *text, const char *path)
{
    struct file_room room = {text->at, sizeof text->at, &text->length, &text->identity};

    if (!file_read_or_input(path, room))
        return false;
    if (text->length <= TEXT_MAX)
        return true;
    fprintf(stderr, "desk: cannot read %s: It has more than %d bytes\n", file_name(path), TEXT_MAX);
    return false;
}

/* The place before the first line of a text. */
struct text_line text_start(void)
{
    return (struct text_line){.number = 0};
}

/* The bytes before the first one of this value; all if there is none. */
static struct text_part before(struct text_part part, char byte)
{
    const uint8_t *found = part.length == 0 ? NULL : memchr(part.at, byte, part.length);

    return (struct text_part){part.at, found == NULL ? part.length : (size_t)(found - part.at)};
}

/* Goes on to the next line; answers false if there is none. */
bool text_next_line(const struct text *text, struct text_line *line)
{
    struct text_part rest = {text->at + line->next, text->length - line->next};
    struct text_part whole = before(rest, '\n');

    if (rest.length == 0)
        return false;
    line->number++;
    line->next += whole.length + (whole.length < rest.length ? 1 : 0);
    line->words = before(whole, '#');
    return true;
}

/* Tells whether a byte separates words. */
static bool separates(uint8_t byte)
{
    return byte == ' ' || byte == '\t' || byte == '\r';
}

/* Takes the bytes up to the first that separates words or, if so asked, to the first that does not. */
static struct text_part take(struct text_part *words, bool separating)
{
    struct text_part taken = {words->at, 0};

    while (taken.length < words->length && separates(words->at[taken.length]) == separating)
        taken.length++;
    words->at += taken.length;
    words->length -= taken.length;
    return taken;
}

/* Takes the first of the words; answers false, with a word of no bytes, if there is none. */
bool text_next_word(struct text_part *words, struct text_part *word)
{
    take(words, true);
    *word = take(words, false);
    return word->length > 0;
}

/* The number of words. */
size_t text_count_words(struct text_part words)
{
    struct text_part word;
    size_t count = 0;

    while (text_next_word(&words, &word))
        count++;
    return count;
}
