/* The longest polls that were found. */
#include "longest.h"

#define CLASSES 250
#define FLOWS 65536

static void drr_of(uint32_t classes, uint32_t quantum) {
    tc("qdisc add dev d root handle 1: drr");
    for (uint32_t at = 1; at <= classes; at++) {
        tc("class add dev d parent 1: classid 1:%x drr quantum %u", at, quantum);
        tc("filter add dev d parent 1: prio %u flower dst_port %u classid 1:%x", at, at, at);
    }
}

static void drr_with(uint32_t quantum, uint16_t len) {
    open_device(len);
    drr_of(CLASSES, quantum);
    for (uint32_t at = 1; at <= CLASSES; at++) {
        arrives(at, len);
    }
}

static void small_quanta(void) { drr_with(1, UINT16_MAX); }

static void usual_quanta(void) { drr_with(1514, 1514); }

/* Each flow has sent a packet, and has another one. */
static void flows_with(uint32_t flows, uint32_t quantum, uint16_t len) {
    open_device(len);
    tc("qdisc add dev d root handle 1: fq_codel limit 1000000 flows %u quantum %u", flows, quantum);
    for (uint32_t at = 0; at < 2 * flows; at++) {
        arrives(at % flows, len);
    }
    sends(flows);
}

static void small_quantum(void) { flows_with(FLOWS, 1, UINT16_MAX); }

static void long_packets(void) { flows_with(FLOWS, 1514, UINT16_MAX); }

static void default_flows(void) { flows_with(1024, 1514, 1514); }

/* Each flow is empty and still listed, but for the last one. */
static void empty_flows(uint32_t flows) {
    for (uint32_t at = 0; at < flows; at++) {
        arrives(at, 100);
    }
    sends(flows);
}

static void emptied_flows(void) {
    open_device(1514);
    tc("qdisc add dev d root handle 1: fq_codel limit 1000000 flows %u", FLOWS);
    empty_flows(FLOWS);
    arrives(FLOWS - 2, 100);
}

static void emptied_bands(void) {
    open_device(1514);
    tc("qdisc add dev d root handle 1: prio bands 16 priomap 0 1 2 3 4 5 6 7 8 9 10 11 12 13 14 15");
    for (uint32_t band = 1; band <= 16; band++) {
        tc("qdisc add dev d parent 1:%x handle %x: fq_codel limit 1000000", band, band + 16);
    }
    for (uint8_t band = 15; band-- > 0;) {
        for (uint32_t at = 0; at < 1024; at++) {
            arrives_with_prio(at, 100, band);
        }
        sends(1024);
    }
    arrives_with_prio(1, 100, 15);
}

/* A customer is a class with an fq_codel, whose flows have sent a packet each and have another one. */
static void customers(void) {
    open_device(1514);
    drr_of(CLASSES, 300);
    for (uint32_t at = 1; at <= CLASSES; at++) {
        tc("qdisc add dev d parent 1:%x handle %x: fq_codel limit 1000000 quantum 300", at, at + 16);
    }
    for (uint32_t at = 0; at < 2 * 1024 * CLASSES; at++) {
        qtree_packet packet = { .len = 1514, .hash = at / CLASSES, .family = 4, .dport = (uint16_t)(1 + at % CLASSES) };
        MUST(qtree_arrive(&device, &packet, now) == QTREE_DONE);
    }
    sends(1024 * CLASSES);
}

/* Packets of one flow wait for so long that CoDel drops the most that it can in one poll. */
static void codel_with(uint32_t packets) {
    open_device(1514);
    tc("qdisc add dev d root handle 1: fq_codel limit %u noecn", packets);
    for (uint32_t at = 0; at < packets; at++) {
        arrives(0, 1000);
    }
    for (now = 10000000; now < 200000000; now += 110000000) {
        poll_once();
    }
    now += UINT64_C(1000000) * 1000000000;
}

static void codel(void) { codel_with(200000); }

static void idle(void) { open_device(1514); }

static void poll_nothing(void) {
    qtree_packet packet;
    MUST(qtree_poll(&device, now, &packet) == QTREE_IDLE);
}

const struct row poll_rows[] = {
    { "poll-idle", "nothing is queued at the pfifo of a new device", idle, poll_nothing },
    { "poll-drr", "a drr of 250 classes with quanta and packets of 1514 bytes", usual_quanta, poll_once },
    { "poll-drr-small", "the same with quanta of 1 and packets of 65,535 bytes", small_quanta, poll_once },
    { "poll-flows", "an fq_codel of 1024 listed flows with a quantum and packets of 1514 bytes", default_flows, poll_once },
    { "poll-flows-long", "one of 65,536 such flows with packets of 65,535 bytes", long_packets, poll_once },
    { "poll-flows-small", "the same with a quantum of 1", small_quantum, poll_once },
    { "poll-emptied", "an fq_codel of 65,536 flows that are empty and listed", emptied_flows, poll_once },
    { "poll-bands", "a prio whose first 15 bands have fq_codels of 1024 such flows", emptied_bands, poll_once },
    { "poll-customers", "250 customers, each an fq_codel of 1024 flows; quanta of 300", customers, poll_once },
    { "poll-codel", "CoDel drops all but one of 200,000 packets", codel, poll_once },
    { 0 },
};
