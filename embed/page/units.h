/* Numbers with units, as the lines of a mix have them, and as tables and pictures show them. */
#ifndef UNITS_H
#define UNITS_H

#include "../c/reader.h"
#include "../c/text.h"

enum { NS_UNITS = 0, BIT_UNITS = 1 };

/* A number with a unit, as 2.5ms or 20mbit, in nanoseconds or bits a second; false if it is none such, or more than 2^53. */
bool read_unit(struct word word, int units, uint64_t *value);
/* value / unit with so many digits at least, as 53.8; the unit is a power of ten. Whole digits are all written, with commas. */
void text_number(struct text *text, uint64_t value, uint64_t unit, unsigned digits);

#endif
