/* What stands in a device, as numbers: its qdiscs with their counters, and the classes of its drrs. */
#ifndef TREE_H
#define TREE_H

#include "qtree.h"

enum { MOST_QDISCS = 256 }; /* a device has no more */

#define NOBODY_WAITS UINT64_MAX

struct tree {
    qtree_row device;
    uint64_t device_wait; /* how long the oldest packet has waited, in nanoseconds; NOBODY_WAITS where none is queued */
    qtree_node_view qdiscs[MOST_QDISCS]; /* each before those beneath it */
    uint64_t waits[MOST_QDISCS];         /* the same of each qdisc */
    size_t qdisc_count;
    qtree_class_view *classes; /* those of drrs */
    size_t class_count;
};

/* Reads all of it, as it is now, on the thread that has the device. QTREE_DONE, QTREE_MEMORY, QTREE_IS_CLOSED. */
qtree_code tree_read(struct tree *tree, const qtree_device *device, uint64_t now);
void tree_free(struct tree *tree);

#endif
