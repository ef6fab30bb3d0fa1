/* Workloads of packets, whose instructions count-steps counts.
 *
 *   steps WORKLOAD N     N packets of this workload
 */
#include "check.h"
#include "qtree.h"

#include <string.h>

static qtree_device device = QTREE_CLOSED;

static void run(const char *line) {
    if (qtree_run(&device, line, 0, NULL) != QTREE_DONE) {
        fprintf(stderr, "%s\n", line);
        abort();
    }
}

static void arrives(uint32_t buf, uint32_t hash) {
    const qtree_packet packet = { .len = 100, .buf = buf, .hash = hash };
    CHECK(qtree_arrive(&device, &packet, 0) == QTREE_DONE);
}

/* A packet arrives and is polled, so many times. */
static void pass(qtree_packet packet, unsigned long times) {
    qtree_sent sent;
    for (unsigned long i = 0; i < times; i++) {
        CHECK(qtree_arrive(&device, &packet, 0) == QTREE_DONE && qtree_poll_buf(&device, 0, &sent) == QTREE_DONE);
    }
}

/* By bursts of 32, as qtree_arrive_many and qtree_poll_bufs pass them: of packets to eight ports in turn, where so many are queued already. */
static void by_bursts(unsigned long times, unsigned long queued) {
    qtree_packet packets[32];
    qtree_sent sent[32];
    uint8_t codes[32];
    size_t done;
    for (size_t i = 0; i < 32; i++) {
        packets[i] = (qtree_packet){ .len = 1000, .prio = (uint8_t)(i % 3), .dport = (uint16_t)(1 + i % 8) };
    }
    for (unsigned long i = 0; i < queued; i++) {
        CHECK(qtree_arrive(&device, &packets[i % 32], 0) == QTREE_DONE);
    }
    for (unsigned long i = 0; i < times; i += 32) {
        CHECK(qtree_arrive_many(&device, packets, 32, codes, 32, &done, 0) == QTREE_DONE && done == 32);
        CHECK(qtree_poll_bufs(&device, 0, sent, 32, &done) == QTREE_DONE && done == 32);
    }
}

static void through_a_long_pfifo_by_bursts(unsigned long times) {
    run("tc qdisc add dev wan root pfifo limit 2000");
    by_bursts(times, 1000);
}

static void through_an_empty_pfifo_by_bursts(unsigned long times) {
    run("tc qdisc add dev wan root pfifo limit 2000");
    by_bursts(times, 0);
}

static void through_a_prio_by_bursts(unsigned long times) {
    run("tc qdisc add dev wan root prio priomap 0 1 2 0 1 2 0 1 2 0 1 2 0 1 2 0");
    by_bursts(times, 500);
}

static void through_a_tbf_by_bursts(unsigned long times) {
    run("tc qdisc add dev wan root tbf rate 100gbit burst 4000000000 limit 4000000000");
    by_bursts(times, 500);
}

/* A drr of eight classes, which were added in the order of their numbers. */
static void add_classes(void) {
    char line[120];
    run("tc qdisc add dev wan root handle 1: drr");
    for (uint32_t class = 1; class <= 8; class++) {
        snprintf(line, sizeof line, "tc class add dev wan parent 1: classid 1:%x drr", class);
        run(line);
        snprintf(line, sizeof line, "tc filter add dev wan parent 1: prio 1 flower dst_port %u classid 1:%x", class, class);
        run(line);
    }
}

static void through_a_drr_by_bursts(unsigned long times) {
    add_classes();
    by_bursts(times, 500);
}

/* The class of a packet is found by its place. */
static void through_a_drr(unsigned long times) {
    add_classes();
    pass((qtree_packet){ .len = 100, .dport = 8 }, times);
}

/* Bursts of which the second half finds the pfifo full: each packet of it is lost, and reaped. */
static void through_a_full_pfifo_by_bursts(unsigned long times) {
    qtree_packet packets[32];
    qtree_sent sent[32];
    qtree_loss losses[32];
    uint8_t codes[32];
    size_t done;
    for (size_t i = 0; i < 32; i++) {
        packets[i] = (qtree_packet){ .len = 1000 };
    }
    run("tc qdisc add dev wan root pfifo limit 16");
    for (unsigned long i = 0; i < times; i += 32) {
        CHECK(qtree_arrive_many(&device, packets, 32, codes, 32, &done, 0) == QTREE_DONE && done == 32);
        CHECK(qtree_poll_bufs(&device, 0, sent, 32, &done) == QTREE_IDLE && done == 16);
        CHECK(qtree_reap_many(&device, losses, 32, &done) == QTREE_NOTHING && done == 16);
    }
}

/* Through a ring by bursts of 32: as many are offered, are taken in and are polled by one call each. */
static void through_a_ring_by_bursts(unsigned long times) {
    qtree_packet packets[32];
    qtree_sent sent[32];
    qtree_port port = QTREE_CLOSED;
    qtree_outlet outlet = QTREE_CLOSED;
    size_t done;
    for (size_t i = 0; i < 32; i++) {
        packets[i] = (qtree_packet){ .len = 1000 };
    }
    CHECK(qtree_ring_open(&port, &outlet, 0, 256) == QTREE_DONE);
    for (unsigned long i = 0; i < times; i += 32) {
        CHECK(qtree_offer_many(&port, packets, 32, &done) == QTREE_DONE && done == 32);
        CHECK(qtree_take_in(&device, &outlet, 0, 32, &done) == QTREE_DONE && done == 32);
        CHECK(qtree_poll_bufs(&device, 0, sent, 32, &done) == QTREE_DONE && done == 32);
    }
    qtree_port_close(&port);
    qtree_outlet_close(&outlet);
}

static void through_a_pfifo(unsigned long times) {
    run("tc qdisc add dev wan root pfifo");
    pass((qtree_packet){ .len = 100 }, times);
}

/* Packets of just the mtu, the commonest length, take no longer way than short ones. */
static void of_just_the_mtu(unsigned long times) {
    run("tc qdisc add dev wan root prio");
    pass((qtree_packet){ .len = 1514 }, times);
}

/* A prio of 16, of which the last band has the packet: the others are fifos with nothing, and need not be asked. */
static void through_empty_fifos(unsigned long times) {
    run("tc qdisc add dev wan root handle 1: prio bands 16 priomap 15 15 15 15 15 15 15 15 15 15 15 15 15 15 15 15");
    pass((qtree_packet){ .len = 100 }, times);
}

/* The same where the others are tbfs, each of which is asked and has dropped and marked nothing. */
static void through_quiet_bands(unsigned long times) {
    char line[120];
    run("tc qdisc add dev wan root handle 1: prio bands 16 priomap 15 15 15 15 15 15 15 15 15 15 15 15 15 15 15 15");
    for (int band = 1; band < 16; band++) {
        snprintf(line, sizeof line, "tc qdisc add dev wan parent 1:%x tbf rate 1gbit burst 10000 limit 10000", band);
        run(line);
    }
    pass((qtree_packet){ .len = 100 }, times);
}

static void add_filters(uint32_t filters) {
    char line[120];
    run("tc qdisc add dev wan root handle 1: prio");
    for (uint32_t many = 1; many <= filters; many++) {
        snprintf(line, sizeof line, "tc filter add dev wan parent 1: prio 1 flower %s %u classid 1:1", many % 2 == 0 ? "src_port" : "dst_port", many);
        run(line);
    }
}

/* So many filters of two shapes; the packet is the last one's. */
static void through_filters(unsigned long times, uint32_t filters) {
    add_filters(filters);
    pass((qtree_packet){ .len = 100, .sport = (uint16_t)filters }, times);
}

/* The same where another filter was removed. */
static void through_filters_left(unsigned long times) {
    add_filters(254);
    run("tc filter add dev wan parent 1: prio 2 flower classid 1:2");
    run("tc filter del dev wan parent 1: prio 2");
    pass((qtree_packet){ .len = 100, .sport = 254 }, times);
}

static void through_few_filters(unsigned long times) { through_filters(times, 8); }
static void through_many_filters(unsigned long times) { through_filters(times, 256); }

/* CoDel drops a packet of a flow that always stands, with a gap that it computes each time: polls come an interval apart, and with the
 * longest interval a number that is found step by step would take the most of them. */
static void through_codel(unsigned long times) {
    qtree_sent sent;
    uint64_t now = 0;
    run("tc qdisc add dev wan root fq_codel limit 1000000 flows 1 target 1us interval 1000s");
    for (unsigned long i = 0; i < times; i++) {
        for (int more = 0; more < 8; more++) {
            const qtree_packet packet = { .len = 1000 };
            CHECK(qtree_arrive(&device, &packet, now) == QTREE_DONE);
        }
        now += UINT64_C(1000000000000);
        CHECK(qtree_poll_buf(&device, now, &sent) == QTREE_DONE);
    }
}

/* Turns that find nothing, so many: as of a program that wakes for something else. */
static void turns(unsigned long times, uint64_t now) {
    qtree_sent sent[32];
    qtree_lost lost[32];
    qtree_turned turned;
    for (unsigned long i = 0; i < times; i++) {
        CHECK(qtree_turn(&device, now, sent, 32, lost, 32, &turned) == QTREE_DONE && turned.sent == 0 && turned.lost == 0 && turned.again > now);
    }
}

static void turns_at_an_empty_pfifo(unsigned long times) {
    run("tc qdisc add dev wan root pfifo");
    turns(times, 0);
}

/* The fq_codel has packets, and the tbf holds one for which it has no tokens yet. */
static void turns_at_a_tbf_that_waits(unsigned long times) {
    qtree_sent sent;
    run("tc qdisc add dev wan root handle 1: tbf rate 8mbit burst 1500 latency 50ms");
    run("tc qdisc add dev wan parent 1:1 handle 2: fq_codel");
    for (uint32_t i = 0; i < 8; i++) {
        const qtree_packet packet = { .len = 1500, .hash = i };
        CHECK(qtree_arrive(&device, &packet, 0) == QTREE_DONE);
    }
    CHECK(qtree_poll_buf(&device, 0, &sent) == QTREE_DONE && qtree_poll_buf(&device, 0, &sent) == QTREE_LATER);
    turns(times, 0);
}

/* Bursts of 32 through a pfifo, each sent by a turn. */
static void turns_of_32(unsigned long times) {
    qtree_packet packets[32];
    qtree_sent sent[32];
    qtree_lost lost[32];
    qtree_turned turned;
    uint8_t codes[32];
    size_t done;
    for (size_t i = 0; i < 32; i++) {
        packets[i] = (qtree_packet){ .len = 1000 };
    }
    run("tc qdisc add dev wan root pfifo limit 2000");
    for (unsigned long i = 0; i < times; i += 32) {
        CHECK(qtree_arrive_many(&device, packets, 32, codes, 32, &done, 0) == QTREE_DONE && done == 32);
        CHECK(qtree_turn(&device, 0, sent, 32, lost, 32, &turned) == QTREE_DONE && turned.sent == 32 && turned.again == UINT64_MAX);
    }
}

/* A full fq_codel loses a packet of its fat flow for each that arrives in another. */
static void through_a_full_fq_codel(unsigned long times) {
    qtree_loss loss;
    run("tc qdisc add dev wan root fq_codel limit 30000 drop_batch 1");
    for (uint32_t i = 0; i < 30000; i++) {
        arrives(i, 0);
    }
    for (unsigned long i = 0; i < times; i++) {
        arrives(0, (uint32_t)(i % 1000) + 1);
        CHECK(qtree_reap(&device, &loss) == QTREE_DONE && loss.packet.buf == i);
    }
}

/* One workload of these, with a device of its own. */
static int work(const char *name, unsigned long times) {
    static const struct {
        const char *name;
        void (*work)(unsigned long times);
    } all[] = {
        { "pfifo", through_a_pfifo },
        { "bursts", through_a_long_pfifo_by_bursts },
        { "first-bursts", through_an_empty_pfifo_by_bursts },
        { "lost-bursts", through_a_full_pfifo_by_bursts },
        { "prio-bursts", through_a_prio_by_bursts },
        { "tbf-bursts", through_a_tbf_by_bursts },
        { "drr-bursts", through_a_drr_by_bursts },
        { "drr", through_a_drr },
        { "mtu", of_just_the_mtu },
        { "ring-bursts", through_a_ring_by_bursts },
        { "empty-fifos", through_empty_fifos },
        { "quiet-bands", through_quiet_bands },
        { "few-filters", through_few_filters },
        { "many-filters", through_many_filters },
        { "filters-left", through_filters_left },
        { "codel", through_codel },
        { "full-fq_codel", through_a_full_fq_codel },
        { "empty-turns", turns_at_an_empty_pfifo },
        { "early-turns", turns_at_a_tbf_that_waits },
        { "turns-of-32", turns_of_32 },
    };
    for (size_t i = 0; i < sizeof all / sizeof all[0]; i++) {
        if (strcmp(all[i].name, name) == 0) {
            CHECK(qtree_open(&device, &(qtree_settings)QTREE_DEFAULTS) == QTREE_DONE);
            all[i].work(times);
            qtree_close(&device);
            return 0;
        }
    }
    fprintf(stderr, "steps: there is no workload %s\n", name);
    return 2;
}

int main(int count, char **words) { return count == 3 ? work(words[1], strtoul(words[2], NULL, 10)) : 2; }
