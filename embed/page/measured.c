#include "simulation.h"

static size_t bin_at(const struct simulation *sim, uint64_t now) {
    uint64_t at = now / (sim->mix->last / BINS);
    return at < BINS ? (size_t)at : BINS - 1;
}

struct bin *bin_now(const struct simulation *sim, struct measured *group) {
    return &group->bins[bin_at(sim, sim->now)];
}

/* The class of a delay: FINE of them for each doubling. */
static size_t class_of(uint64_t delay) {
    unsigned shift = 0;
    for (; delay >> shift >= 2 * FINE; shift++) {
    }
    size_t class = (size_t)(shift * FINE + (delay >> shift));
    return class < DELAYS ? class : DELAYS - 1;
}

/* The longest delay of a class. */
static uint64_t end_of(size_t class) {
    unsigned shift = class < 2 * FINE ? 0 : (unsigned)(class / FINE - 1);
    return ((class - shift * (size_t)FINE + 1) << shift) - 1;
}

void measured_left(struct simulation *sim, struct measured *group, uint64_t delay, uint32_t len) {
    struct bin *bin = bin_now(sim, group);
    bin->shortest = bin->count == 0 || delay < bin->shortest ? delay : bin->shortest;
    bin->longest = delay > bin->longest ? delay : bin->longest;
    bin->count++;
    bin->bytes += len;
    bin->delays += delay;
    group->sent++;
    group->sent_bytes += len;
    group->queued_bytes -= len;
    group->longest = delay > group->longest ? delay : group->longest;
    group->delays[class_of(delay)]++;
}

uint64_t measured_within(const struct measured *group, unsigned of_10000) {
    uint64_t needed = (group->sent * of_10000 + 9999) / 10000, found = 0;
    for (size_t class = 0; class < DELAYS; class ++) {
        found += group->delays[class];
        if (found >= needed && found > 0) {
            uint64_t end = end_of(class);
            return end < group->longest ? end : group->longest;
        }
    }
    return group->longest;
}

void simulation_at(struct simulation *sim, uint64_t now) {
    size_t before = bin_at(sim, sim->now), after = bin_at(sim, now);
    sim->now = now;
    for (size_t at = before + 1; at <= after; at++) {
        for (size_t group = 0; group < sim->mix->group_count; group++) {
            sim->groups[group].bins[at].queued = sim->groups[group].queued_bytes;
        }
    }
}
