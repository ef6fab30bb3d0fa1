/* The places of a tree, what is promised to them, and what was measured beside that. */
#include "simulation.h"

static const uint64_t BILLION = 1000000000;
static const wide BYTE = 8000000000;

static void read_promises(struct simulation *sim, struct place *it) {
    it->late = UINT64_MAX;
    it->has_service = qtree_service(&sim->device, it->place, it->major, it->minor, &it->service) == QTREE_DONE;
    it->has_worst = qtree_worst(&sim->device, it->place, it->major, it->minor, &it->worst) == QTREE_DONE;
    if (it->has_service) {
        qtree_lateness(&sim->device, it->place, it->major, it->minor, &it->late);
    } else if (it->has_worst) {
        it->late = it->worst.late;
    }
    if (sim->plant == PLANT_SHARE) {
        it->service.rate += it->service.rate / 50;
        it->service.part += it->service.part / 50;
    }
}

void places_read(struct simulation *sim) {
    qtree_node_view view;
    for (size_t at = 0; at < PLACES && qtree_node(&sim->device, at, &view) == QTREE_DONE; at++) {
        struct place *it = &sim->places[sim->place_count++];
        bool is_leaf = view.kind == QTREE_PFIFO || view.kind == QTREE_BFIFO || view.kind == QTREE_FQ_CODEL;
        *it = (struct place){ .kind = view.kind, .place = view.place, .handle = view.handle, .above = -1, .is_leaf = is_leaf };
        it->major = view.place == QTREE_ROOT ? 0 : view.parent_major;
        it->minor = view.place == QTREE_ROOT ? 0 : view.parent_minor;
        it->latest_near = UINT64_MAX;
        if (view.place == QTREE_ROOT && view.kind == QTREE_TBF) {
            sim->rate = view.rate;
        }
        for (size_t above = 0; above < at; above++) {
            it->above = sim->places[above].handle == it->major && it->major != 0 ? (int)above : it->above;
        }
        read_promises(sim, it);
    }
}

bool place_is_in(const struct simulation *sim, int place, int above) {
    while (place >= 0 && place != above) {
        place = sim->places[place].above;
    }
    return place >= 0;
}

/* Whether a packet that was promised to leave by a time, and before more bytes than a bound have left, did so. */
static void note_latest(const struct simulation *sim, struct place *place, const struct waiting *waiting) {
    bool has_time = waiting->by != UINT64_MAX;
    uint64_t by = has_time ? waiting->by + sim->late_most : 0;
    bool is_missed = (has_time && sim->now > by) || sim->sent_bytes > waiting->by_bytes;
    uint64_t near = has_time ? by - sim->now : waiting->by_bytes - sim->sent_bytes;
    place->latest_count++;
    place->latest_missed += is_missed;
    if (!is_missed && near < place->latest_near) {
        place->latest_near = near;
    }
}

void place_left(struct simulation *sim, struct place *place, const struct waiting *waiting, uint32_t len) {
    uint64_t delay = sim->now - waiting->arrived, bytes = sim->sent_bytes - waiting->before;
    place->longest = delay > place->longest ? delay : place->longest;
    place->longest_bytes = bytes > place->longest_bytes ? bytes : place->longest_bytes;
    if (waiting->by_bytes != UINT64_MAX) {
        note_latest(sim, place, waiting);
    }
    for (struct place *it = place;; it = &sim->places[it->above]) {
        it->bytes += len;
        if (it->above < 0) {
            return;
        }
    }
}

static bool has_packets(const struct simulation *sim, const struct place *it) {
    qtree_row row;
    return qtree_stats(&sim->device, it->place, it->major, it->minor, &row) == QTREE_DONE && row.queued.packets > 0;
}

/* Of each class that is promised a share: by how much it fell behind it since any poll from which on it had packets. With a tbf at the root
 * that is counted in time and from polls that returned no packet, else in what the root's classes sent. */
void places_weigh(struct simulation *sim, bool is_last) {
    for (size_t at = 0; at < sim->place_count; at++) {
        struct place *it = &sim->places[at];
        if (!it->has_service) {
            continue;
        }
        if (!has_packets(sim, it)) {
            it->is_busy = false;
            continue;
        }
        bool is_timed = it->service.link != 0;
        if (is_timed && !is_last) {
            continue;
        }
        wide ahead = is_timed ? (wide)it->bytes * BYTE - (wide)it->service.rate * (wide)sim->now
                              : (wide)it->bytes * (wide)BILLION - (wide)it->service.part * (wide)sim->sent_bytes;
        it->ahead = !it->is_busy || ahead > it->ahead ? ahead : it->ahead;
        it->is_busy = it->was_busy = true;
        it->behind = it->ahead - ahead > it->behind ? it->ahead - ahead : it->behind;
    }
}
