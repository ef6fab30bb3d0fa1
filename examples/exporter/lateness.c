#include "lateness.h"

const uint64_t lateness_bounds[LATENESS_BOUNDS] = { 1000, 10000, 50000, 100000, 500000, 1000000, 5000000, 10000000, 100000000 };

void lateness_begin(struct lateness *lateness, const qtree_device *device) {
    *lateness = (struct lateness){ .due = UINT64_MAX };
    lateness_allow(lateness, device);
}

/* A class without a promise has no bound; docs/SERVICE.md says which classes have one. */
void lateness_allow(struct lateness *lateness, const qtree_device *device) {
    qtree_node_view node;
    qtree_class_view class;
    lateness->allowed = UINT64_MAX;
    for (size_t index = 0; qtree_node(device, index, &node) == QTREE_DONE; index++) {
        for (size_t which = 0; qtree_class(device, index, which, &class) == QTREE_DONE; which++) {
            uint64_t late;
            if (qtree_lateness(device, QTREE_CLASS, class.major, class.minor, &late) == QTREE_DONE && late < lateness->allowed) {
                lateness->allowed = late;
            }
        }
    }
}

/* The last time that was ahead counts. Once it has come it stays until a poll finds nothing, whatever arrives meanwhile: the bucket has been
 * filling up since then. */
void lateness_note(struct lateness *lateness, uint64_t at, uint64_t now) {
    if (at == UINT64_MAX || at > now || lateness->due > now) {
        lateness->due = at;
    }
}

void lateness_ask(struct lateness *lateness, const qtree_device *device, uint64_t now) {
    uint64_t at;
    lateness_note(lateness, qtree_ready_at(device, &at) == QTREE_DONE ? at : UINT64_MAX, now);
}

void lateness_count(struct lateness *lateness, uint64_t now) {
    if (lateness->due > now) {
        return;
    }
    uint64_t late = now - lateness->due;
    size_t i = 0;
    while (i < LATENESS_BOUNDS && late > lateness_bounds[i]) {
        i++;
    }
    lateness->by_bound[i]++;
    lateness->sum += late;
    lateness->greatest = late > lateness->greatest ? late : lateness->greatest;
    lateness->above += late > lateness->allowed;
}
