/* How late a program polls its device. */
#ifndef LATENESS_H
#define LATENESS_H

#include "qtree.h"

/* Begins with { .due = UINT64_MAX }. */
struct lateness {
    uint64_t due;      /* the time at which a packet is due, or was first due; UINT64_MAX where none is */
    uint64_t greatest; /* nanoseconds */
};

/* To be called after arrivals, commands and polls. A time that has come stays, since an arrival makes the next poll no less late. */
static inline void lateness_ask(struct lateness *lateness, const qtree_device *device, uint64_t now) {
    uint64_t ready;
    if (qtree_ready_at(device, &ready) != QTREE_DONE) {
        lateness->due = UINT64_MAX;
    } else if (ready > now || lateness->due > now) {
        lateness->due = ready;
    }
}

/* To be called before the polls of this time. */
static inline void lateness_count(struct lateness *lateness, uint64_t now) {
    if (lateness->due <= now && now - lateness->due > lateness->greatest) {
        lateness->greatest = now - lateness->due;
    }
}

#endif
