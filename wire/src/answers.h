/* What the program says of itself while it runs. */
#ifndef ANSWERS_H
#define ANSWERS_H

#include "wire.h"

#include <stdio.h>

void answer_show(struct wire *wire, FILE *file);
void answer_counts(struct wire *wire, FILE *file);
void answer_promise(struct wire *wire, FILE *file);
void answer_metrics(struct wire *wire, FILE *file);
void answer_status(struct wire *wire, FILE *file);

/* The counts once the threads have ended. */
void answer_last_counts(struct wire *wire, FILE *file);

/* How late 99.9 % of the polls were at most, as far as the histogram says; UINT64_MAX beyond its last bound, 0 if there were none. */
uint64_t late_mostly(const struct lateness *lateness);

#endif
