/* What is to happen, in the order of its time, and of what was noted first where the time is the same. */
#ifndef AGENDA_H
#define AGENDA_H

#include <stdbool.h>
#include <stddef.h>
#include <stdint.h>

enum happens { BEGINS, SENDS, IS_ACKNOWLEDGED, LOOKS };

struct event {
    uint64_t time, order, serial, sent_at;
    uint32_t flow;
    uint8_t happens;
    bool is_marked;
};

struct agenda {
    struct event *events; /* a heap */
    size_t count, room;
    uint64_t noted;
};

/* Notes an event; false if an allocation fails. */
bool agenda_note(struct agenda *agenda, struct event event);
/* The time of the next event, or UINT64_MAX. */
uint64_t agenda_time(const struct agenda *agenda);
/* Takes the next event, which there has to be. */
struct event agenda_take(struct agenda *agenda);
void agenda_free(struct agenda *agenda);

#endif
