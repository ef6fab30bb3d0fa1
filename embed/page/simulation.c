#include "simulation.h"

#include <stdlib.h>
#include <string.h>

static const uint64_t BYTE = UINT64_C(8000000000), MS = 1000000;

/* Carries out the lines of a tree, which were tried before. */
static void set_up(struct simulation *sim, const struct tree *tree) {
    const uint8_t *line = tree->lines.bytes;
    for (size_t left = tree->lines.len, len; left > 0; left -= len + 1, line += len + 1) {
        qtree_fault fault;
        len = (size_t)((const uint8_t *)memchr(line, '\n', left) - line);
        sim->is_short = (len > 0 && qtree_command(&sim->device, line, len, 0, &fault) != QTREE_DONE) || sim->is_short;
    }
}

bool simulation_open(struct simulation *sim, const struct mix *mix, size_t tree, uint32_t recorder, enum plant plant) {
    memset(sim, 0, sizeof *sim);
    sim->mix = mix;
    sim->tree = &mix->trees[tree];
    sim->plant = plant;
    sim->spare = UINT32_MAX;
    sim->due = sim->poll_at = UINT64_MAX;
    sim->late_planted = plant == PLANT_LATE ? 2 * MS : 0;
    const qtree_settings settings = { 1000, recorder, mix->mtu };
    if (qtree_open(&sim->device, &settings) != QTREE_DONE) {
        return false;
    }
    set_up(sim, sim->tree);
    places_read(sim);
    senders_begin(sim);
    return !sim->is_short;
}

void simulation_close(struct simulation *sim) {
    qtree_close(&sim->device);
    agenda_free(&sim->agenda);
    free(sim->waiting);
    sim->waiting = NULL;
}

static void release(struct simulation *sim, uint32_t buf) {
    sim->waiting[buf].next_spare = sim->spare;
    sim->spare = buf;
}

static void reap(struct simulation *sim) {
    qtree_loss loss;
    while (qtree_reap(&sim->device, &loss) == QTREE_DONE) {
        struct measured *group = &sim->groups[sim->mix->group_of[loss.packet.port]];
        group->queued_bytes -= loss.packet.len;
        group->losses[loss.cause]++;
        bin_now(sim, group)->lost++;
        release(sim, loss.packet.buf);
    }
}

/* A packet leaves; false if an allocation fails. */
static bool leave(struct simulation *sim, const qtree_sent *sent) {
    const struct waiting *waiting = &sim->waiting[sent->buf];
    const struct flow *flow = &sim->flows[sent->port];
    struct measured *measured = &sim->groups[sim->mix->group_of[sent->port]];
    const struct group *group = &sim->mix->groups[sim->mix->group_of[sent->port]];
    bool is_marked = sent->ecn == 3 && sim->mix->flows[sent->port].ecn != 3;
    sim->sent_bytes += sent->len;
    sim->free_at = sim->mix->link == 0 ? 0 : sim->now + (sent->len * BYTE + sim->mix->link - 1) / sim->mix->link;
    measured_left(sim, measured, sim->now - waiting->arrived, sent->len);
    if (is_marked) {
        measured->marked++;
        bin_now(sim, measured)->marked++;
    }
    if (flow->leaf >= 0) {
        place_left(sim, &sim->places[flow->leaf], waiting, sent->len);
    }
    release(sim, sent->buf);
    struct event heard = { .time = sim->now + group->rtt, .serial = sent->number, .flow = sent->port, .happens = IS_ACKNOWLEDGED };
    heard.is_marked = is_marked;
    heard.sent_at = waiting->arrived;
    return group->sends != SENDS_TCP || agenda_note(&sim->agenda, heard);
}

/* One poll; false if an allocation fails. */
static bool poll(struct simulation *sim) {
    qtree_sent sent;
    qtree_code code = qtree_poll_buf(&sim->device, sim->now, &sent);
    uint64_t late = sim->now - sim->due;
    bool is_done = code != QTREE_DONE || leave(sim, &sent);
    sim->last_event = sim->now;
    if (sim->plant != PLANT_LATE && late > sim->late_most) {
        sim->late_most = late;
    }
    if (code != QTREE_DONE) {
        sim->due = UINT64_MAX;
    }
    reap(sim);
    places_weigh(sim, code != QTREE_DONE);
    return is_done;
}

/* When the next poll comes. A poll that is due once stays due; until then the newest answer of the device counts. */
static void plan(struct simulation *sim) {
    uint64_t ready, due = UINT64_MAX;
    if (qtree_ready_at(&sim->device, &ready) == QTREE_DONE) {
        due = ready > sim->now ? ready : sim->due < sim->now ? sim->due : sim->now;
    }
    sim->due = due;
    uint64_t at = due == UINT64_MAX ? due : due + sim->mix->late + sim->late_planted;
    at = at < sim->free_at ? sim->free_at : at;
    sim->poll_at = at < sim->now ? sim->now : at;
}

bool simulation_run(struct simulation *sim, uint64_t until, uint32_t events) {
    until = until < sim->mix->last ? until : sim->mix->last;
    for (; events > 0 && !sim->is_short; events--) {
        uint64_t next = agenda_time(&sim->agenda), at = sim->poll_at < next ? sim->poll_at : next;
        if (at > until) {
            simulation_at(sim, until);
            return true;
        }
        simulation_at(sim, at);
        bool is_done = sim->poll_at <= next ? poll(sim) : senders_act(sim, agenda_take(&sim->agenda));
        sim->is_short = !is_done;
        if (next < sim->poll_at) {
            reap(sim);
        }
        plan(sim);
    }
    return sim->is_short;
}

uint64_t simulation_packets(const struct simulation *sim) {
    uint64_t sum = 0, rate = sim->rate != 0 && (sim->mix->link == 0 || sim->rate < sim->mix->link) ? sim->rate : sim->mix->link;
    uint64_t by_tcp = 0, least = UINT16_MAX;
    for (size_t at = 0; at < sim->mix->group_count; at++) {
        const struct group *group = &sim->mix->groups[at];
        uint64_t stop = group->stop < sim->mix->last ? group->stop : sim->mix->last, time = stop > group->start ? stop - group->start : 0;
        if (group->sends == SENDS_TCP) {
            by_tcp += time / group->rtt * group->count * WINDOW_MOST;
            least = group->len < least ? group->len : least;
        } else {
            sum += time / group->gap;
        }
    }
    uint64_t by_link = rate == 0 ? UINT64_MAX : (uint64_t)((wide)rate * (wide)sim->mix->last / (wide)BYTE / (wide)least);
    return sum + (by_tcp < by_link ? by_tcp : by_link);
}
