/* Tries once each pitfall that docs/EMBEDDING.md names. */
#include "check.h"
#include "qtree.h"

#include <string.h>

enum { MANY = 1000 };

static void open_with(qtree_device *device, const char *line) {
    qtree_fault fault;
    CHECK(qtree_open(device, &(qtree_settings){ .txqueuelen = MANY, .mtu = 1514 }) == QTREE_DONE);
    CHECK(qtree_command(device, (const uint8_t *)line, strlen(line), 0, &fault) == QTREE_DONE);
}

/* number keeps a pointer through an arrival and a poll, and not through a ring, which writes its own. */
static void pointers(void) {
    qtree_device device = QTREE_CLOSED;
    qtree_port port = QTREE_CLOSED;
    qtree_outlet outlet = QTREE_CLOSED;
    size_t taken;
    open_with(&device, "tc qdisc add dev a root handle 1: pfifo");
    CHECK(qtree_ring_open(&port, &outlet, 5, 8) == QTREE_DONE);
    qtree_packet packet = { .len = 100, .buf = UINT32_MAX, .number = (uintptr_t)&device };
    CHECK(qtree_arrive(&device, &packet, 0) == QTREE_DONE && qtree_offer(&port, &packet) == QTREE_DONE);
    CHECK(qtree_take_in(&device, &outlet, 0, 8, &taken) == QTREE_DONE && taken == 1);
    CHECK(qtree_poll(&device, 0, &packet) == QTREE_DONE && packet.number == (uintptr_t)&device && packet.buf == UINT32_MAX);
    CHECK(qtree_poll(&device, 0, &packet) == QTREE_DONE && packet.number == 1 && packet.buf == UINT32_MAX);
    qtree_port_close(&port);
    qtree_outlet_close(&outlet);
    qtree_close(&device);
}

/* A packet that is lost on arrival is reaped too; CoDel loses packets in a poll; and a command hands back all that it removes. */
static void losses(void) {
    qtree_device device = QTREE_CLOSED;
    qtree_packet packet = { .len = 1000 };
    qtree_loss loss;
    qtree_fault fault;
    uint64_t lost[QTREE_LOST_MOST + 1] = { 0 };
    open_with(&device, "tc qdisc add dev a root handle 1: fq_codel noecn");
    packet.len = 1515;
    CHECK(qtree_is_loss(qtree_arrive(&device, &packet, 0)) && qtree_reap(&device, &loss) == QTREE_DONE);
    lost[loss.cause]++;
    CHECK(lost[QTREE_LOST_TOO_LONG] == 1);
    packet.len = 1000;
    for (int i = 0; i < MANY; i++) {
        CHECK(qtree_arrive(&device, &packet, 0) == QTREE_DONE && qtree_reap(&device, &loss) == QTREE_NOTHING);
    }
    CHECK(qtree_poll(&device, 100000000, &packet) == QTREE_DONE && qtree_reap(&device, &loss) == QTREE_NOTHING);
    CHECK(qtree_poll(&device, 300000000, &packet) == QTREE_DONE);
    CHECK(qtree_reap(&device, &loss) == QTREE_DONE && loss.cause == QTREE_LOST_CODEL && qtree_reap(&device, &loss) == QTREE_NOTHING);
    qtree_row row;
    CHECK(qtree_totals(&device, &row) == QTREE_DONE && row.queued.packets > 0);
    static const char removal[] = "tc qdisc del dev a root";
    CHECK(qtree_command(&device, (const uint8_t *)removal, strlen(removal), 300000000, &fault) == QTREE_DONE);
    for (uint64_t i = 0; i < row.queued.packets; i++) {
        CHECK(qtree_reap(&device, &loss) == QTREE_DONE && loss.cause == QTREE_LOST_PURGED);
    }
    CHECK(qtree_reap(&device, &loss) == QTREE_NOTHING);
    qtree_close(&device);
}

/* How many packets of a flow find no buffer beside a flood, where an fq_codel may hold 100 packets, and the program has so many buffers. */
static size_t without_buffer(size_t buffers) {
    qtree_device device = QTREE_CLOSED;
    size_t used = 0, missed = 0;
    open_with(&device, "tc qdisc add dev a root handle 1: fq_codel limit 100");
    for (uint32_t i = 0; i < MANY; i++) {
        qtree_packet packet = { .len = 1000, .hash = i % 100 == 99 };
        if (used == buffers) {
            missed += packet.hash;
            continue;
        }
        const qtree_code code = qtree_arrive(&device, &packet, 0);
        CHECK(code == QTREE_DONE || code == QTREE_LOST_FAT_FLOW);
        used++;
        for (qtree_loss loss; qtree_reap(&device, &loss) == QTREE_DONE; used--) {
            CHECK(loss.packet.hash == 0);
        }
    }
    qtree_close(&device);
    return missed;
}

/* With a buffer for each packet of the limit, and one for the packet that arrives, the fq_codel keeps the packets of the other flow. */
static void buffers(void) { CHECK(without_buffer(101) == 0 && without_buffer(90) == MANY / 100); }

/* Closing a device hands nothing back. Before that each packet comes back by a loss, once the root is deleted, or by a poll of the pfifo
 * that a device without commands has. */
static void before_closing(void) {
    static const char removal[] = "tc qdisc del dev a root";
    for (int has_root = 0; has_root < 2; has_root++) {
        qtree_device device = QTREE_CLOSED;
        qtree_packet packet = { .len = 1000 };
        qtree_loss loss;
        qtree_fault fault;
        int back = 0;
        CHECK(qtree_open(&device, &(qtree_settings){ .txqueuelen = MANY, .mtu = 1514 }) == QTREE_DONE);
        if (has_root == 1) {
            static const char line[] = "tc qdisc add dev a root handle 1: tbf rate 8mbit burst 2000 limit 1mb";
            CHECK(qtree_command(&device, (const uint8_t *)line, strlen(line), 0, &fault) == QTREE_DONE);
        }
        for (int count = 0; count < MANY; count++) {
            CHECK(qtree_arrive(&device, &packet, 0) == QTREE_DONE);
        }
        const qtree_code deleted = qtree_command(&device, (const uint8_t *)removal, strlen(removal), 0, &fault);
        CHECK(deleted == (has_root == 1 ? QTREE_DONE : QTREE_REFUSED_NO_QDISC));
        for (; qtree_poll(&device, 0, &packet) == QTREE_DONE; back++) {
        }
        CHECK(back == (has_root == 1 ? 0 : MANY) && qtree_poll(&device, 0, &packet) == QTREE_IDLE);
        for (; qtree_reap(&device, &loss) == QTREE_DONE; back++) {
        }
        CHECK(back == MANY);
        qtree_close(&device);
    }
}

/* The later fragments of a datagram have no ports, and so another hash than the first. */
static void fragments(void) {
    uint8_t head[28] = { 0x45, 0, 5, 220, 0, 9, 0x20, 0, 64, 17, 0, 0, 10, 0, 0, 1, 10, 0, 0, 2, 0x10, 0, 0x13, 0x89 };
    qtree_packet first = { .len = 1500 }, later = { .len = 1500 };
    qtree_read_head(head, sizeof head, 0, &first);
    head[7] = 185;
    qtree_read_head(head, sizeof head, 0, &later);
    CHECK(first.sport == 4096 && first.dport == 5001 && later.sport == 0 && later.dport == 0);
    CHECK(first.proto == later.proto && first.src_low == later.src_low && first.hash != later.hash);
}

/* Two devices with a bucket each send twice its rate together. */
static void shared_link(void) {
    uint64_t sent = 0;
    for (int i = 0; i < 2; i++) {
        qtree_device device = QTREE_CLOSED;
        qtree_packet packet = { .len = 1000 };
        open_with(&device, "tc qdisc add dev a root handle 1: tbf rate 8mbit burst 2000 limit 1mb");
        for (int count = 0; count < MANY; count++) {
            CHECK(qtree_arrive(&device, &packet, 0) == QTREE_DONE);
        }
        for (uint64_t now = 0; now <= 100000000; now += 1000000) {
            while (qtree_poll(&device, now, &packet) == QTREE_DONE) {
                sent += packet.len;
            }
        }
        qtree_close(&device);
    }
    CHECK(sent == 2 * (2000 + 100000));
}

int main(void) {
    pointers();
    losses();
    buffers();
    before_closing();
    fragments();
    shared_link();
    puts("pitfalls: each is as the page says");
    return 0;
}
