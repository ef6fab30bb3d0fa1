/* A turn by one call does what a turn by the single calls does, over random events at trees of each kind: the same packets, losses, events
 * and time to come back. The second device's program asks qtree_ready_at each time, which remembers nothing. */
#include "check.h"
#include "qtree.h"

#include <string.h>

enum { STEPS = 200000, EACH = 400, ROOM = 40, LINES = 7 };

static uint32_t state = 11;

/* A random number below this one. */
static uint32_t below(uint32_t most) {
    state = state * 1664525u + 1013904223u;
    return (uint32_t)(((uint64_t)state * most) >> 32);
}

/* Trees of each kind, and of all kinds together. */
static const char *const trees[][LINES] = {
    { "tc qdisc add dev a root handle 1: pfifo limit 20" },
    { "tc qdisc add dev a root handle 1: bfifo limit 9000" },
    { "tc qdisc add dev a root handle 1: prio bands 3", "tc qdisc add dev a parent 1:2 handle 2: tbf rate 20mbit burst 3000 limit 9000" },
    { "tc qdisc add dev a root handle 1: tbf rate 20mbit burst 3000 limit 9000" },
    { "tc qdisc add dev a root handle 1: tbf rate 20mbit burst 3000 limit 9000", "tc qdisc add dev a parent 1:1 handle 2: fq_codel limit 30 flows 8" },
    { "tc qdisc add dev a root handle 1: fq_codel limit 30 flows 8 target 100us interval 1ms" },
    { "tc qdisc add dev a root handle 1: tbf rate 20mbit burst 1600 limit 9000", "tc qdisc add dev a parent 1:1 handle 2: drr",
      "tc class add dev a parent 2: classid 2:1 drr quantum 500", "tc class add dev a parent 2: classid 2:2 drr quantum 1500",
      "tc qdisc add dev a parent 2:2 handle 3: fq_codel limit 9 flows 2", "tc filter add dev a parent 2: prio 1 flower dst_port 1 classid 2:1",
      "tc filter add dev a parent 2: prio 2 flower classid 2:2" },
};

static void run(qtree_device *device, const char *line, uint64_t now) {
    CHECK(qtree_run(device, line, now, NULL) == QTREE_DONE);
}

/* A command that may come while packets are queued. */
static void command(qtree_device *device, uint32_t which, uint64_t now) {
    static const char *const lines[] = {
        "tc qdisc change dev a handle 1: tbf rate 9mbit burst 4000 limit 5000", "tc qdisc change dev a handle 1: pfifo limit 3",
        "tc qdisc change dev a handle 2: fq_codel limit 3", "tc qdisc del dev a root", "tc qdisc add dev a root handle 1: pfifo limit 9",
    };
    qtree_run(device, lines[which % (sizeof lines / sizeof lines[0])], now, NULL);
}

/* What a turn finds. */
struct found {
    qtree_sent sent[ROOM];
    qtree_lost lost[ROOM];
    qtree_turned turned;
};

static void by_one_call(qtree_device *device, uint64_t now, size_t room, size_t lost_room, struct found *found) {
    CHECK(qtree_turn(device, now, found->sent, room, found->lost, lost_room, &found->turned) == QTREE_DONE);
}

static void by_single_calls(qtree_device *device, uint64_t now, size_t room, size_t lost_room, struct found *found) {
    qtree_loss loss;
    uint64_t at = UINT64_MAX;
    found->turned = (qtree_turned){ 0, 0, UINT64_MAX };
    if (qtree_ready_at(device, &at) == QTREE_DONE && at <= now) {
        qtree_poll_bufs(device, now, found->sent, room, &found->turned.sent);
    }
    while (found->turned.lost < lost_room && qtree_reap(device, &loss) == QTREE_DONE) {
        found->lost[found->turned.lost++] = (qtree_lost){ loss.packet.number, loss.packet.port, loss.packet.buf, loss.cause };
    }
    qtree_ready_at(device, &found->turned.again);
}

static bool same_sent(const qtree_sent *a, const qtree_sent *b) {
    return a->number == b->number && a->port == b->port && a->buf == b->buf && a->len == b->len && a->ecn == b->ecn;
}

static bool same_lost(const qtree_lost *a, const qtree_lost *b) {
    return a->number == b->number && a->port == b->port && a->buf == b->buf && a->cause == b->cause;
}

static void same_found(const struct found *a, const struct found *b) {
    CHECK(a->turned.sent == b->turned.sent && a->turned.lost == b->turned.lost && a->turned.again == b->turned.again);
    for (size_t i = 0; i < ROOM; i++) {
        CHECK(same_sent(&a->sent[i], &b->sent[i]) && same_lost(&a->lost[i], &b->lost[i]));
    }
}

/* Devices with the same events have the same counters, and have noted as many. */
static void same_devices(const qtree_device *a, const qtree_device *b) {
    qtree_row one, other;
    uint64_t events, as_many, noted;
    size_t recorded, kept;
    CHECK(qtree_totals(a, &one) == QTREE_DONE && qtree_totals(b, &other) == QTREE_DONE && memcmp(&one, &other, sizeof one) == 0);
    CHECK(qtree_events(a, &events, &recorded) == QTREE_DONE && qtree_events(b, &as_many, &recorded) == QTREE_DONE && events == as_many);
    CHECK(qtree_last_noted(a, &noted, &kept) == QTREE_DONE && noted == events);
}

static void arrive(qtree_device *one, qtree_device *other, uint64_t now) {
    const qtree_packet packet = { .number = below(1000), .buf = below(1000), .len = (uint16_t)(40 + below(1500)), .hash = below(8),
                                  .dport = (uint16_t)below(2), .prio = (uint8_t)below(16), .ecn = (uint8_t)below(4) };
    qtree_code code = qtree_arrive(one, &packet, now);
    CHECK(code == qtree_arrive(other, &packet, now));
}

static void turn(qtree_device *one, qtree_device *other, uint64_t now) {
    static struct found by_one, by_many;
    size_t room = below(3) == 0 ? below(3) : below(ROOM + 1), lost_room = below(3) == 0 ? 0 : below(ROOM + 1);
    memset(&by_one, 7, sizeof by_one);
    memset(&by_many, 7, sizeof by_many);
    by_one_call(one, now, room, lost_room, &by_one);
    by_single_calls(other, now, room, lost_room, &by_many);
    same_found(&by_one, &by_many);
    /* Where there was room the next turn is not due yet. */
    CHECK(by_one.turned.sent == room || by_one.turned.again > now);
    if (below(2) == 0) {
        by_one_call(one, now, room, lost_room, &by_one);
        by_single_calls(other, now, room, lost_room, &by_many);
        same_found(&by_one, &by_many);
    }
}

static void play(const char *const *lines, unsigned long steps) {
    qtree_device one = QTREE_CLOSED, other = QTREE_CLOSED;
    const qtree_settings settings = QTREE_DEFAULTS;
    qtree_sent sent;
    uint64_t now = 0;
    CHECK(qtree_open(&one, &settings) == QTREE_DONE && qtree_open(&other, &settings) == QTREE_DONE && qtree_keep_last(&one, 100) == QTREE_DONE);
    for (size_t i = 0; i < LINES && lines[i] != NULL; i++) {
        run(&one, lines[i], 0);
        run(&other, lines[i], 0);
    }
    for (unsigned long i = 0; i < steps; i++) {
        uint32_t which = below(5);
        now += below(4) == 0 ? 0 : below(400000);
        switch (below(200)) {
        case 0: command(&one, which, now), command(&other, which, now); break;
        case 1: CHECK(qtree_poll_buf(&one, now, &sent) == qtree_poll_buf(&other, now, &sent)); break;
        default: below(2) == 0 ? arrive(&one, &other, now) : turn(&one, &other, now); break;
        }
        same_devices(&one, &other);
    }
    qtree_close(&one);
    qtree_close(&other);
}

/* A closed device, and times at the edge. */
static void refused(void) {
    qtree_device device = QTREE_CLOSED;
    struct found found = { .sent[0].buf = 9, .lost[0].buf = 9, .turned = { 7, 7, 7 } };
    CHECK(qtree_turn(&device, 0, found.sent, ROOM, found.lost, ROOM, &found.turned) == QTREE_IS_CLOSED);
    CHECK(found.turned.sent == 0 && found.turned.lost == 0 && found.turned.again == UINT64_MAX);
    CHECK(qtree_open(&device, &(qtree_settings)QTREE_DEFAULTS) == QTREE_DONE);
    CHECK(qtree_arrive(&device, &(qtree_packet){ .len = 1, .buf = 3 }, 5) == QTREE_DONE);
    found.turned = (qtree_turned){ 7, 7, 7 };
    CHECK(qtree_turn(&device, QTREE_MOMENT_MAX + 1, found.sent, ROOM, found.lost, ROOM, &found.turned) == QTREE_OUT_OF_RANGE);
    CHECK(found.turned.sent == 0 && found.turned.lost == 0 && found.turned.again == UINT64_MAX && found.sent[0].buf == 9 && found.lost[0].buf == 9);
    CHECK(qtree_turn(&device, QTREE_MOMENT_MAX, NULL, 0, NULL, 0, &found.turned) == QTREE_DONE && found.turned.again == 5);
    /* A time before the clock counts as the clock. */
    CHECK(qtree_turn(&device, 0, found.sent, 1, NULL, 0, &found.turned) == QTREE_DONE && found.turned.sent == 1 && found.sent[0].buf == 3);
    CHECK(found.turned.again == UINT64_MAX);
    qtree_close(&device);
}

int main(int argc, char **argv) {
    unsigned long steps = argc > 1 ? strtoul(argv[1], NULL, 10) : STEPS;
    refused();
    for (size_t tree = 0; tree < sizeof trees / sizeof trees[0]; tree++) {
        for (unsigned long done = 0; done < steps; done += EACH) {
            play(trees[tree], EACH);
        }
    }
    printf("turn: %zu trees with %lu steps each: a turn is so many polls and so many reaps\n", sizeof trees / sizeof trees[0], steps);
    return 0;
}
