/* The text of a plan: its bytes, its lines and their words. */
#ifndef TEXT_H
#define TEXT_H

#include "file.h"

/* The most bytes of a text. */
#define TEXT_MAX 1048576

/* A text's bytes, with room for one more than a text may have, their count, and which file it is. */
struct text {
    uint8_t at[TEXT_MAX + 1];
    size_t length;
    struct file_identity identity;
};

/* Bytes of a text that follow each other: a word, or words with what separates them. */
struct text_part {
    const uint8_t *at;
    size_t length;
};

/* A line of a text. */
struct text_line {
    size_t number;          /* counted from 1 */
    size_t next;            /* the offset of the line after it */
    struct text_part words; /* what stands before its comment */
};

/* Reads a text's file, or standard input for "-"; says what is wrong and answers false if it cannot. */
bool text_read(struct text *text, const char *path);

/* The place before the first line of a text. */
struct text_line text_start(void);

/* Goes on to the next line; answers false if there is none. */
bool text_next_line(const struct text *text, struct text_line *line);

/* Takes the first of the words; answers false, with a word of no bytes, if there is none. */
bool text_next_word(struct text_part *words, struct text_part *word);

/* The number of words. */
size_t text_count_words(struct text_part words);

#endif
