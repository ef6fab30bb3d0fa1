/* The senders of a mix: when each sends its next packet, and what it hears of it. */
#include "simulation.h"

#include <stdlib.h>

static const uint64_t MS = 1000000;

static const struct group *group_of(const struct simulation *sim, uint32_t flow) { return &sim->mix->groups[sim->mix->group_of[flow]]; }

static bool note(struct simulation *sim, uint64_t time, enum happens happens, uint32_t flow) {
    return agenda_note(&sim->agenda, (struct event){ .time = time, .happens = (uint8_t)happens, .flow = flow });
}

void senders_begin(struct simulation *sim) {
    for (uint32_t flow = 0; flow < sim->mix->flow_count; flow++) {
        const struct group *group = group_of(sim, flow);
        uint64_t after = (flow - group->first_flow) * 50 * MS;
        sim->flows[flow] = (struct flow){ .random = sim->mix->seed * 1000 + flow, .leaf = -1 };
        sim->is_short = !note(sim, group->start + after, group->sends == SENDS_TCP ? BEGINS : SENDS, flow) || sim->is_short;
    }
}

/* 32 random bits. */
static uint32_t random_bits(struct flow *flow) {
    flow->random += UINT64_C(0x9e3779b97f4a7c15);
    uint64_t it = (flow->random ^ (flow->random >> 30)) * UINT64_C(0xbf58476d1ce4e5b9);
    it = (it ^ (it >> 27)) * UINT64_C(0x94d049bb133111eb);
    return (uint32_t)((it ^ (it >> 31)) >> 32);
}

/* A random time with this mean, as between calls that come by chance: mean * -ln(u), the logarithm by squares. */
static uint64_t random_gap(struct flow *flow, uint64_t mean) {
    uint64_t u = (uint64_t)random_bits(flow) + 1, log = 0; /* log: -log2(u / 2^32) in 2^-20 */
    unsigned bits = 63 - (unsigned)__builtin_clzll(u);
    log = (uint64_t)(32 - bits) << 20;
    u = bits > 31 ? u >> (bits - 31) : u << (31 - bits);
    for (unsigned bit = 20; bit-- > 0;) {
        u = u * u >> 31;
        if (u >> 32 != 0) {
            u >>= 1;
            log -= UINT64_C(1) << bit;
        }
    }
    return (uint64_t)((wide)mean * (wide)log * 726817 / ((wide)1 << 40)) + 1; /* ln(2) is 726817 / 2^20 */
}

/* A place for a packet that waits; its index, or UINT32_MAX if an allocation fails. */
static uint32_t waiting_place(struct simulation *sim) {
    uint32_t spare = sim->spare;
    if (spare != UINT32_MAX) {
        sim->spare = sim->waiting[spare].next_spare;
        return spare;
    }
    if (sim->waiting_count == sim->waiting_room) {
        uint32_t room = 2 * sim->waiting_room + 1024;
        struct waiting *waiting = realloc(sim->waiting, room * sizeof *waiting);
        if (waiting == NULL) {
            return UINT32_MAX;
        }
        sim->waiting = waiting;
        sim->waiting_room = room;
    }
    return sim->waiting_count++;
}

/* Finds the leaf to which the packets of a flow go, by the counters before and after an arrival. */
static qtree_code arrive_and_look(struct simulation *sim, struct flow *flow, const qtree_packet *packet) {
    uint64_t before[PLACES] = { 0 };
    qtree_row row;
    for (size_t at = 0; at < sim->place_count; at++) {
        const struct place *it = &sim->places[at];
        before[at] = qtree_stats(&sim->device, it->place, it->major, it->minor, &row) == QTREE_DONE ? row.arrived.packets : 0;
    }
    qtree_code code = qtree_arrive(&sim->device, packet, sim->now);
    for (size_t at = 0; at < sim->place_count; at++) {
        struct place *it = &sim->places[at];
        if (it->is_leaf && qtree_stats(&sim->device, it->place, it->major, it->minor, &row) == QTREE_DONE &&
            row.arrived.packets > before[at]) {
            flow->leaf = (int)at;
        }
    }
    for (int at = flow->leaf; at >= 0; at = sim->places[at].above) {
        sim->places[at].is_used = true;
    }
    return code;
}

/* By when the device promises that a packet has left that is to arrive now. */
static void ask_latest(const struct simulation *sim, const struct flow *flow, uint32_t len, struct waiting *waiting) {
    const struct place *place = flow->leaf < 0 ? NULL : &sim->places[flow->leaf];
    qtree_departure departure;
    waiting->by = waiting->by_bytes = UINT64_MAX;
    if (place == NULL || !place->has_worst ||
        qtree_latest(&sim->device, place->place, place->major, place->minor, (uint16_t)len, &departure) != QTREE_DONE) {
        return;
    }
    waiting->by_bytes = sim->sent_bytes + departure.bytes - (sim->plant == PLANT_BYTE);
    waiting->by = departure.at == UINT64_MAX ? UINT64_MAX : departure.at + (sim->now - sim->last_event);
}

/* A packet of a flow comes to the device; false if an allocation fails. */
static bool send(struct simulation *sim, uint32_t index) {
    struct flow *flow = &sim->flows[index];
    struct measured *group = &sim->groups[sim->mix->group_of[index]];
    uint32_t at = waiting_place(sim);
    if (at == UINT32_MAX) {
        return false;
    }
    qtree_packet packet = sim->mix->flows[index];
    struct waiting *waiting = &sim->waiting[at];
    *waiting = (struct waiting){ .arrived = sim->now, .before = sim->sent_bytes };
    ask_latest(sim, flow, packet.len, waiting);
    packet.buf = at;
    packet.number = flow->tcp.next;
    qtree_code code = flow->leaf < 0 ? arrive_and_look(sim, flow, &packet) : qtree_arrive(&sim->device, &packet, sim->now);
    if (code != QTREE_DONE && !qtree_is_loss(code)) {
        return false;
    }
    struct bin *bin = bin_now(sim, group);
    sim->last_event = sim->now;
    group->arrived++;
    group->queued_bytes += packet.len;
    if (code == QTREE_DONE && waiting->by != UINT64_MAX && waiting->by - sim->now > bin->latest) {
        bin->latest = waiting->by - sim->now;
    }
    flow->tcp.next++;
    return true;
}

static bool send_window(struct simulation *sim, uint32_t flow) {
    bool is_done = true;
    while (is_done && sim->now < group_of(sim, flow)->stop && tcp_may_send(&sim->flows[flow].tcp)) {
        is_done = send(sim, flow);
    }
    return is_done;
}

bool senders_act(struct simulation *sim, struct event event) {
    struct flow *flow = &sim->flows[event.flow];
    const struct group *group = group_of(sim, event.flow);
    if (event.happens == IS_ACKNOWLEDGED) {
        flow->tcp.rtt = sim->now - event.sent_at;
        tcp_acknowledged(&flow->tcp, event.serial, event.is_marked, sim->now);
        return send_window(sim, event.flow);
    }
    if (sim->now >= group->stop) {
        return true;
    }
    if (event.happens == SENDS) {
        uint64_t gap = group->sends == SENDS_RANDOM ? random_gap(flow, group->gap) : group->gap;
        return send(sim, event.flow) && note(sim, sim->now + gap, SENDS, event.flow);
    }
    if (event.happens == BEGINS) {
        tcp_begin(&flow->tcp, group->rtt, sim->now);
    } else {
        tcp_look(&flow->tcp, sim->now);
    }
    return send_window(sim, event.flow) && note(sim, sim->now + 100 * MS, LOOKS, event.flow);
}
