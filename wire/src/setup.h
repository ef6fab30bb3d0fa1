/* Sets both directions up by a file of tc's lines: all or nothing. */
#ifndef SETUP_H
#define SETUP_H

#include "wire.h"

#include <stdio.h>

/* Tries the file for both directions on spare devices, and gives it to theirs if both can have it; says what was done, or why nothing was.
 * Before the threads run it needs none of them. */
bool setup_load(struct wire *wire, bool is_running, FILE *says);

/* Tries the file alone, for the cards that it names; what `qtree-wire --check` does. */
bool setup_check(const char *file, FILE *says);

/* Reads how many frames the trees of a file can hold, the larger of both, so that the program may have as many slots. */
uint64_t setup_needs(const struct wire *wire);

/* How many frames of at least the shortest length a device can hold. */
uint64_t setup_frames(const qtree_device *device);

#endif
