/* The tables of a run. Cells are separated by tabs; the first row of the flows names the columns. */
#ifndef REPORT_H
#define REPORT_H

#include "simulation.h"

/* A row for each group: what was sent, how long its packets waited, and what was marked and lost. */
void report_flows(const struct simulation *sim, struct text *text);
/* A row for each promise: kept, broken or none, then the place, what is promised, and what was measured. False if one is broken. */
bool report_promises(const struct simulation *sim, struct text *text);
/* The name of a place, as 2:1. */
void report_place(const struct place *place, struct text *text);

#endif
