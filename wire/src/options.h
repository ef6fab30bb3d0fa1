/* The command line. */
#ifndef OPTIONS_H
#define OPTIONS_H

#include "wire.h"

struct options {
    const struct io *io;
    const char *name, *left, *right, *file;
    uint32_t overhead, slots; /* slots of each direction; 0 is what the file needs */
    int priority;             /* real-time priority; 0 is none */
    uint64_t nap;             /* nanoseconds */
    bool keeps_passing;
};

/* Reads the options of a wire; false, with the reason in a line. */
bool options_read(struct options *options, int argc, char **argv);
void options_help(FILE *file);

#endif
