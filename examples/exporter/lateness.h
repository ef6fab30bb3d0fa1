/* How late a program polls its device, and how late it may, so that what the device promises its classes applies. */
#ifndef LATENESS_H
#define LATENESS_H

#include "qtree.h"

enum { LATENESS_BOUNDS = 9 };

/* The upper bounds of the histogram, in nanoseconds. */
extern const uint64_t lateness_bounds[LATENESS_BOUNDS];

struct lateness {
    uint64_t due;     /* the time at which a packet is due, or was first due since the last poll; UINT64_MAX where none will be */
    uint64_t allowed; /* the least of what the classes allow; UINT64_MAX where none has a bound */
    uint64_t by_bound[LATENESS_BOUNDS + 1]; /* how many were at most as late as a bound, and above the one before; the rest last */
    uint64_t sum, greatest, above; /* nanoseconds, and how many were later than is allowed */
};

/* Begins with nothing counted, and asks what each class of the tree allows: to be called again after a command. */
void lateness_begin(struct lateness *lateness, const qtree_device *device);
void lateness_allow(struct lateness *lateness, const qtree_device *device);

/* Asks when a packet is due: to be called after arrivals, commands and polls. */
void lateness_ask(struct lateness *lateness, const qtree_device *device, uint64_t now);

/* The same for a program that has asked itself: at is the time that qtree_ready_at gave, or UINT64_MAX where nothing is due. */
void lateness_note(struct lateness *lateness, uint64_t at, uint64_t now);

/* Counts how late the polls of this time are, where a packet is due: to be called once before them. */
void lateness_count(struct lateness *lateness, uint64_t now);

#endif
