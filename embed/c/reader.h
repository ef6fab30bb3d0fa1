/* Reads the words of a line of a script, from left to right (docs/LANGUAGE.md). */
#ifndef READER_H
#define READER_H

#include "qtree.h"

struct word {
    const uint8_t *at;
    size_t len;
};

/* What is left of a line, how many words were taken, and the fault that ended the reading. Functions that answer false have
 * written a fault, whose word is the one taken last. */
struct reader {
    const uint8_t *rest;
    size_t left;
    size_t taken;
    qtree_fault fault;
};

struct reader reader_of(const uint8_t *line, size_t len);
/* The next word, of length 0 behind the last one. */
bool next_word(struct reader *reader, struct word *word);
/* The next word, which the line needs. */
bool needed_word(struct reader *reader, struct word *word);
/* No word is left. */
bool line_ends(struct reader *reader);
bool word_is(struct word word, const char *name);
/* Digits that write a number between two. */
bool read_number(struct reader *reader, struct word word, uint64_t low, uint64_t high, uint64_t *number);
/* Writes a fault of the word taken last, and answers false. */
bool fault_here(struct reader *reader, uint32_t number);
/* The value of a digit in this base, or -1. */
int digit_value(uint8_t byte, int base);

#endif
