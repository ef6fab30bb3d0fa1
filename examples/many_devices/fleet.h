/* Several workers whose devices have the same tree, and a device without traffic, on which each line is tried first. */
#ifndef FLEET_H
#define FLEET_H

#include "worker.h"

struct fleet {
    qtree_device trial; /* no packet reaches it */
    struct worker *workers;
    size_t count;
    bool is_running;
};

/* Opens so many workers, 1 to WORKERS_MOST. QTREE_DONE, QTREE_OUT_OF_RANGE, QTREE_MEMORY. */
qtree_code fleet_open(struct fleet *fleet, size_t count);

/* Starts the workers' threads; false where one cannot be started, and none runs. */
bool fleet_start(struct fleet *fleet);

/* Stops them, and waits until they have ended. */
void fleet_stop(struct fleet *fleet);

void fleet_close(struct fleet *fleet);

/* Plays a line on all devices or on none, and returns what qtree_command does. Whether a line is done depends on the tree alone, so the
 * result of the trial is that of all devices, but for failed allocations: after one the device is asked again until it succeeds. Each
 * worker first gets as many buffers as the tree of the trial can hold packets after the line. */
qtree_code fleet_command(struct fleet *fleet, const char *line, qtree_fault *fault);

/* The sum of what all devices counted at a place, each of them between two bursts of its own. Answers as qtree_stats does. */
qtree_code fleet_stats(struct fleet *fleet, uint32_t place, uint16_t major, uint16_t minor, qtree_row *sum);

#endif
