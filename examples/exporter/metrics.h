/* Devices in the text format of Prometheus, version 0.0.4. */
#ifndef METRICS_H
#define METRICS_H

#include "lateness.h"
#include "tree.h"

#include <stdio.h>

/* The losses that the program reaped, by cause: only the losses themselves have their causes, and no counter of the device does. */
struct losses {
    qtree_count by_cause[QTREE_LOST_MOST + 1];
};

/* What is written of one device. */
struct source {
    const char *device;
    const struct tree *tree;
    const struct losses *losses;
    const struct lateness *lateness;
};

/* Writes each family once, with the rows of all devices behind it. */
void metrics_write(FILE *file, const struct source *sources, size_t source_count);

#endif
