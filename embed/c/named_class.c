/* A program that knows the class of a packet names it in the descriptor, as docs/EMBEDDING.md shows. */
#include "check.h"
#include "qtree.h"

#include <string.h>

enum { CUSTOMERS = 2, HEAD = 28, SECOND = 1000000000 };

/* A packet of a customer arrives. The filters find the customer's number in the place of the source port. The hash is that of
 * the real ports, since it is computed before, so an fq_codel still tells the customer's flows apart. */
static qtree_code arrive_for(qtree_device *device, uint16_t customer, const uint8_t *bytes, uint16_t len, uint32_t buf,
                             uint64_t now) {
    qtree_packet packet = { .len = len, .buf = buf };
    qtree_read_head(bytes, len, 0, &packet);
    packet.sport = customer;
    return qtree_arrive(device, &packet, now);
}

/* Counts what the device lost by customer and cause: only a loss has its cause, and a row of counters has one number for all
 * causes. Losses of packets without a customer are counted in place 0. */
static void count_losses(qtree_device *device, uint64_t lost[CUSTOMERS + 1][QTREE_LOST_MOST + 1]) {
    qtree_loss loss;
    while (qtree_reap(device, &loss) == QTREE_DONE) {
        uint16_t customer = loss.packet.sport <= CUSTOMERS ? loss.packet.sport : 0;
        lost[customer][loss.cause]++; /* and a program frees the buffer loss.packet.buf */
    }
}

static void set_up(qtree_device *device) {
    static const char *const lines[] = {
        "tc qdisc add dev wan root handle 1: drr",
        "tc class add dev wan parent 1: classid 1:1 drr quantum 3000",
        "tc class add dev wan parent 1: classid 1:2 drr quantum 1500",
        "tc qdisc add dev wan parent 1:1 handle 11: fq_codel",
        "tc qdisc add dev wan parent 1:2 handle 12: fq_codel",
        "tc filter add dev wan parent 1: prio 1 flower src_port 1 classid 1:1",
        "tc filter add dev wan parent 1: prio 1 flower src_port 2 classid 1:2",
    };
    const qtree_settings settings = QTREE_DEFAULTS;
    CHECK(qtree_open(device, &settings) == QTREE_DONE);
    for (size_t i = 0; i < sizeof lines / sizeof lines[0]; i++) {
        CHECK(qtree_run(device, lines[i], 0, NULL) == QTREE_DONE);
    }
}

static const uint8_t udp[HEAD] = { 0x45, 1, 0, 28, 0, 0, 0, 0, 64, 17, 0x66, 0xce, 10, 0, 0, 1,
                                   10, 0, 0, 2, 0x10, 0, 0x13, 0x89, 0, 8 };

/* What the row of a customer's class has refused and dropped is what was counted there by cause. Packets that are too long, or have no
 * class, are lost above it. */
static void compare_losses(const qtree_device *device, uint64_t lost[CUSTOMERS + 1][QTREE_LOST_MOST + 1]) {
    for (uint16_t customer = 1; customer <= CUSTOMERS; customer++) {
        qtree_row row;
        uint64_t dropped = 0;
        for (qtree_code cause = QTREE_LOST_CODEL; cause <= QTREE_LOST_MOST; cause++) {
            dropped += lost[customer][cause];
        }
        CHECK(qtree_stats(device, QTREE_CLASS, 1, customer, &row) == QTREE_DONE);
        CHECK(row.dropped.packets == dropped && row.refused.packets == lost[customer][QTREE_LOST_OVER_LIMIT]);
    }
}

/* Packets of both customers are lost for each cause. */
static void losses_by_customer(void) {
    uint64_t lost[CUSTOMERS + 1][QTREE_LOST_MOST + 1] = { { 0 } };
    uint8_t frame[1515] = { 0 };
    qtree_device device = QTREE_CLOSED;
    set_up(&device);
    memcpy(frame, udp, sizeof udp);
    CHECK(qtree_run(&device, "tc qdisc change dev wan parent 1:1 handle 11: fq_codel limit 8 noecn", 0, NULL) == QTREE_DONE);
    CHECK(qtree_run(&device, "tc qdisc del dev wan parent 1:2 handle 12:", 0, NULL) == QTREE_DONE);
    CHECK(qtree_run(&device, "tc qdisc add dev wan parent 1:2 handle 12: pfifo limit 4", 0, NULL) == QTREE_DONE);
    for (uint32_t i = 0; i < 20; i++) {
        arrive_for(&device, (uint16_t)(1 + i % CUSTOMERS), frame, 1500, i, 0);
    }
    CHECK(arrive_for(&device, 2, frame, 1515, 20, 0) == QTREE_LOST_TOO_LONG);
    CHECK(arrive_for(&device, CUSTOMERS + 1, frame, 1500, 21, 0) == QTREE_LOST_NO_CLASS);
    qtree_sent sent;
    for (uint64_t now = 1; now <= 4; now++) {
        CHECK(qtree_poll_buf(&device, now * SECOND, &sent) == QTREE_DONE);
    }
    count_losses(&device, lost);
    compare_losses(&device, lost);
    CHECK(lost[0][QTREE_LOST_NO_CLASS] == 1 && lost[2][QTREE_LOST_TOO_LONG] == 1 && lost[2][QTREE_LOST_OVER_LIMIT] == 6);
    CHECK(lost[1][QTREE_LOST_FAT_FLOW] == 2 && lost[1][QTREE_LOST_CODEL] > 0);
    qtree_row row;
    CHECK(qtree_stats(&device, QTREE_CLASS, 1, 2, &row) == QTREE_DONE && row.queued.packets > 0);
    CHECK(qtree_run(&device, "tc qdisc del dev wan parent 1:2 handle 12:", 5 * (uint64_t)SECOND, NULL) == QTREE_DONE);
    count_losses(&device, lost);
    CHECK(lost[2][QTREE_LOST_PURGED] == row.queued.packets);
    qtree_close(&device);
}

/* Both customers send the same frames, of two flows: each frame goes to the class of its customer, and each flow has a
 * queue of its own. */
int main(void) {
    losses_by_customer();
    uint8_t frames[2][1500] = { { 0 }, { 0 } }, before[2][1500];
    qtree_device device = QTREE_CLOSED;
    set_up(&device);
    for (size_t flow = 0; flow < 2; flow++) {
        memcpy(frames[flow], udp, sizeof udp);
        frames[flow][21] = (uint8_t)flow; /* of the source port */
    }
    memcpy(before, frames, sizeof frames);
    for (uint32_t i = 0; i < 12; i++) {
        CHECK(arrive_for(&device, (uint16_t)(1 + i % CUSTOMERS), frames[i / 2 % 2], 1500, i, 0) == QTREE_DONE);
    }
    CHECK(arrive_for(&device, CUSTOMERS + 1, frames[0], 1500, 12, 0) == QTREE_LOST_NO_CLASS);
    qtree_node_view node;
    for (uint16_t customer = 1; customer <= CUSTOMERS; customer++) {
        CHECK(qtree_node(&device, customer, &node) == QTREE_DONE && node.handle == 0x10 + customer);
        CHECK(node.row.queued.packets == 6 && node.new_flows == 2);
    }
    qtree_sent sent;
    for (int i = 0; i < 9; i++) { /* two packets of the first customer for each of the second one */
        CHECK(qtree_poll_buf(&device, 0, &sent) == QTREE_DONE && sent.buf % CUSTOMERS == (i % 3 == 2));
    }
    CHECK(memcmp(before, frames, sizeof frames) == 0);
    qtree_close(&device);
    puts("named_class: each packet goes to the class that the program names, and losses are counted by class and cause");
    return 0;
}
