#include "agenda.h"

#include <stdlib.h>

static bool is_before(const struct event *a, const struct event *b) {
    return a->time < b->time || (a->time == b->time && a->order < b->order);
}

static bool has_room(struct agenda *agenda) {
    if (agenda->count < agenda->room) {
        return true;
    }
    size_t room = 2 * agenda->room + 64;
    struct event *events = realloc(agenda->events, room * sizeof *events);
    if (events == NULL) {
        return false;
    }
    agenda->events = events;
    agenda->room = room;
    return true;
}

bool agenda_note(struct agenda *agenda, struct event event) {
    if (!has_room(agenda)) {
        return false;
    }
    event.order = agenda->noted++;
    size_t at = agenda->count++;
    for (size_t above; at > 0 && is_before(&event, &agenda->events[above = (at - 1) / 2]); at = above) {
        agenda->events[at] = agenda->events[above];
    }
    agenda->events[at] = event;
    return true;
}

uint64_t agenda_time(const struct agenda *agenda) { return agenda->count == 0 ? UINT64_MAX : agenda->events[0].time; }

struct event agenda_take(struct agenda *agenda) {
    struct event *events = agenda->events, taken = events[0], last = events[--agenda->count];
    size_t at = 0;
    for (size_t below; (below = 2 * at + 1) < agenda->count; at = below) {
        below += below + 1 < agenda->count && is_before(&events[below + 1], &events[below]);
        if (!is_before(&events[below], &last)) {
            break;
        }
        events[at] = events[below];
    }
    if (agenda->count > 0) {
        events[at] = last;
    }
    return taken;
}

void agenda_free(struct agenda *agenda) {
    free(agenda->events);
    *agenda = (struct agenda){ NULL, 0, 0, 0 };
}
