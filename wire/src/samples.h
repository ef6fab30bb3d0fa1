/* The text of `metrics`, read back. */
#ifndef SAMPLES_H
#define SAMPLES_H

#include <stdbool.h>
#include <stddef.h>

struct sample {
    char name[64], labels[128]; /* labels without the device */
    char device[32];
    double value;
};

struct samples {
    struct sample *all;
    size_t count;
};

/* Reads them; false where an allocation failed. */
bool samples_read(struct samples *samples, const char *text);
void samples_free(struct samples *samples);

/* The value of a sample by its name, device and further labels; `none` if there is no such sample. */
double samples_value(const struct samples *samples, const char *name, const char *device, const char *labels, double none);

#endif
