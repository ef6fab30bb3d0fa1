/* The ring of the last events, beside a recorder that has all of them: after each call the ring has the last that the recorder has. */
#include "check.h"
#include "qtree.h"

#include <string.h>

enum { STEPS = 20000, RECORDED = 200000, MANY = 5, LINE = 1024 };

static uint32_t state = 7;

/* A random number below this one. */
static uint32_t below(uint32_t most) {
    state = state * 1664525u + 1013904223u;
    return (uint32_t)(((uint64_t)state * most) >> 32);
}

static qtree_code tc(qtree_device *device, const char *line, uint64_t now) {
    qtree_fault fault;
    return qtree_command(device, (const uint8_t *)line, strlen(line), now, &fault);
}

/* Whether the padding of two events may differ alone. */
static bool same_event(const qtree_event *a, const qtree_event *b) {
    return memcmp(&a->packet, &b->packet, offsetof(qtree_packet, ecn) + 1) == 0 && a->moment == b->moment && a->kind == b->kind;
}

/* So many events were noted after the first `begun` of the recorder, and the last `places` of them are kept, with the same lines. */
static void same_events(const qtree_device *device, uint64_t begun, size_t places) {
    uint64_t events = 0, noted = 7;
    size_t recorded = 0, kept = 7, len = 0, other = 0;
    qtree_event last, wanted;
    uint8_t line[LINE], known[LINE];
    CHECK(qtree_events(device, &events, &recorded) == QTREE_DONE && events == recorded);
    CHECK(qtree_last_noted(device, &noted, &kept) == QTREE_DONE && noted == events - begun);
    CHECK(kept == (noted < places ? noted : places));
    for (size_t i = 0; i < kept; i++) {
        size_t at = recorded - kept + i;
        CHECK(qtree_last_event(device, i, &last) == QTREE_DONE && qtree_recorded(device, at, &wanted) == QTREE_DONE);
        CHECK(same_event(&last, &wanted));
        CHECK(qtree_last_line(device, i, line, LINE, &len) == QTREE_DONE && qtree_recorded_line(device, at, known, LINE, &other) == QTREE_DONE);
        CHECK(len == other && memcmp(line, known, len) == 0);
    }
    last = wanted = (qtree_event){ .moment = 9 };
    CHECK(qtree_last_event(device, kept, &last) == QTREE_NOTHING && same_event(&last, &wanted));
    CHECK(qtree_last_line(device, kept, line, LINE, &len) == QTREE_NOTHING && len == 0);
}

static qtree_packet a_packet(void) {
    return (qtree_packet){ .len = (uint16_t)(1 + below(1600)), .buf = below(99), .number = below(99), .prio = (uint8_t)below(17), .hash = below(4) };
}

static void arrive(qtree_device *device, uint64_t now) {
    uint8_t codes[MANY];
    qtree_packet packets[MANY];
    size_t done;
    for (int i = 0; i < MANY; i++) {
        packets[i] = a_packet();
    }
    switch (below(5)) {
    case 0: qtree_arrive(device, &packets[0], now); break;
    case 1: qtree_arrive_frame(device, NULL, 0, (uint16_t)below(1600), 7, below(4), now); break;
    case 2: qtree_arrive_frame_seeded(device, NULL, 0, (uint16_t)below(1600), 7, below(4), now); break;
    case 3: qtree_arrive_frame_numbered(device, NULL, 0, (uint16_t)below(1600), 7, now, below(4), now); break;
    default: qtree_arrive_many(device, packets, below(MANY + 1), codes, MANY - 1, &done, now); break;
    }
}

static void poll(qtree_device *device, uint64_t now) {
    qtree_packet packets[MANY];
    qtree_sent sent[MANY];
    qtree_turned turned;
    size_t count;
    switch (below(5)) {
    case 0: qtree_poll(device, now, packets); break;
    case 1: qtree_poll_buf(device, now, sent); break;
    case 2: qtree_poll_many(device, now, packets, below(MANY + 1), &count); break;
    case 3: qtree_turn(device, now, sent, below(MANY + 1), NULL, 0, &turned); break;
    default: qtree_poll_bufs(device, now, sent, below(MANY + 1), &count); break;
    }
}

static void command(qtree_device *device, uint64_t now) {
    static const char *const lines[] = {
        "tc qdisc add dev a root handle 1: prio bands 3", "tc qdisc add dev a parent 1:1 handle 2: fq_codel limit 5 flows 4",
        "tc qdisc del dev a root", "tc qdisc ad", "poll 1", "tc qdisc change dev a handle 2: fq_codel limit 3",
    };
    tc(device, lines[below(sizeof lines / sizeof lines[0])], now);
}

/* Packets come by a ring too, and of what the device refuses nothing is noted. */
static void step(qtree_device *device, qtree_port *port, qtree_outlet *outlet, uint64_t now) {
    qtree_packet packet = a_packet();
    uint64_t at = below(16) == 0 ? QTREE_MOMENT_MAX + 1 : now;
    size_t taken;
    switch (below(8)) {
    case 0: case 1: case 2: arrive(device, at); break;
    case 3: case 4: poll(device, at); break;
    case 5: command(device, at); break;
    case 6: qtree_offer(port, &packet); break;
    default: qtree_take_in(device, outlet, at, below(MANY), &taken); break;
    }
}

/* Readings and reaps note nothing; nor do calls of a device that is to keep nothing. */
static void others(qtree_device *device) {
    qtree_row row;
    qtree_loss losses[2];
    uint64_t at, noted = 7;
    size_t count, kept = 7;
    qtree_ready_at(device, &at);
    qtree_totals(device, &row);
    qtree_show(device, QTREE_SHOW_COUNTERS, NULL, 0, &count);
    qtree_reap(device, losses);
    qtree_reap_many(device, losses, 2, &count);
    CHECK(qtree_last_noted(device, &noted, &kept) == QTREE_DONE && noted == 0 && kept == 0);
}

static void closed(void) {
    qtree_device device = QTREE_CLOSED;
    qtree_event event = { .moment = 9 };
    uint64_t noted = 7;
    size_t kept = 7;
    uint8_t line[1] = { 9 };
    CHECK(qtree_keep_last(&device, 3) == QTREE_IS_CLOSED && qtree_last_noted(&device, &noted, &kept) == QTREE_IS_CLOSED);
    CHECK(noted == 0 && kept == 0 && qtree_last_event(&device, 0, &event) == QTREE_IS_CLOSED && event.moment == 9 && (kept = 7));
    CHECK(qtree_last_line(&device, 0, line, 1, &kept) == QTREE_IS_CLOSED && kept == 0 && line[0] == 9);
}

int main(void) {
    qtree_device device = QTREE_CLOSED;
    qtree_port port = QTREE_CLOSED;
    qtree_outlet outlet = QTREE_CLOSED;
    uint64_t now = 0, begun = 0;
    size_t places = 0, recorded = 0, needed = 0;
    closed();
    CHECK(qtree_open(&device, &(qtree_settings){ 3, RECORDED, 1514 }) == QTREE_DONE && qtree_ring_open(&port, &outlet, 2, 4) == QTREE_DONE);
    CHECK(qtree_poll(&device, 0, &(qtree_packet){ 0 }) == QTREE_IDLE && qtree_last_line(&device, 0, NULL, 0, &needed) == QTREE_NOTHING);
    others(&device);
    for (int i = 0; i < STEPS; i++) {
        if (i % 1000 == 0) {
            places = below(3) == 0 ? 0 : 1 + below(40);
            CHECK(qtree_keep_last(&device, (uint32_t)places) == QTREE_DONE && qtree_keep_last(&device, 1000001) == QTREE_OUT_OF_RANGE);
            CHECK(qtree_events(&device, &begun, &recorded) == QTREE_DONE);
        }
        now += below(1000);
        step(&device, &port, &outlet, now);
        if (places == 0) {
            others(&device);
        } else {
            same_events(&device, begun, places);
        }
    }
    CHECK(qtree_keep_last(&device, 1) == QTREE_DONE && qtree_poll(&device, now, &(qtree_packet){ 0 }) <= QTREE_LATER);
    CHECK(qtree_last_line(&device, 0, NULL, 0, &needed) == QTREE_ROOM && needed == strlen("poll 1"));
    CHECK(qtree_keep_last(&device, 0) == QTREE_DONE);
    others(&device);
    qtree_port_close(&port);
    qtree_outlet_close(&outlet);
    qtree_close(&device);
    printf("last_events: the ring had the last events after each of %d calls\n", STEPS);
    return 0;
}
