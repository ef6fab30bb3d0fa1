/* No call on an open device, port or outlet writes to its place: here the places stand side by side in a page that cannot be written
 * between opening and closing. So threads whose places share a cache line do not wait for each other. */
#define _GNU_SOURCE
#include "check.h"
#include "qtree.h"

#include <string.h>
#include <sys/mman.h>

enum { PAGE = 4096, TEXT = 4000 };

/* Two devices and a ring, 16 bytes apart. */
struct places {
    qtree_device devices[2];
    qtree_port port;
    qtree_outlet outlet;
};

static void packets(qtree_device *device) {
    const uint8_t udp[24] = { 0x45, 0, 0, 24, 0, 0, 0, 0, 64, 17, 0, 0, 10, 0, 0, 1, 10, 0, 0, 2, 0, 1, 0, 2 };
    qtree_packet packet = { .len = 100 }, given[4];
    qtree_sent sent[4];
    qtree_loss losses[4];
    uint8_t codes[4];
    size_t count;
    CHECK(qtree_arrive(device, &packet, 0) == QTREE_DONE && qtree_arrive_frame(device, udp, sizeof udp, 100, 0, 9, 0) == QTREE_DONE);
    CHECK(qtree_arrive_frame_seeded(device, udp, sizeof udp, 100, 0, 9, 0) == QTREE_DONE);
    CHECK(qtree_arrive_many(device, &packet, 1, codes, 1, &count, 0) == QTREE_DONE);
    CHECK(qtree_poll(device, 0, given) == QTREE_DONE && qtree_poll_buf(device, 0, sent) == QTREE_DONE);
    CHECK(qtree_poll_many(device, 0, given, 1, &count) == QTREE_DONE && qtree_poll_bufs(device, 0, sent, 4, &count) == QTREE_IDLE);
    CHECK(qtree_reap(device, losses) == QTREE_NOTHING && qtree_reap_many(device, losses, 4, &count) == QTREE_NOTHING);
}

static void reads(const qtree_device *device) {
    static uint8_t text[TEXT];
    qtree_node_view node;
    qtree_class_view class;
    qtree_event event;
    qtree_row row;
    uint64_t number;
    size_t count;
    CHECK(qtree_ready_at(device, &number) == QTREE_NOTHING && qtree_totals(device, &row) == QTREE_DONE);
    CHECK(qtree_stats(device, QTREE_ROOT, 0, 0, &row) == QTREE_DONE && row.arrived.packets >= 4);
    CHECK(qtree_node(device, 0, &node) == QTREE_DONE && qtree_class(device, 0, 0, &class) == QTREE_DONE);
    CHECK(qtree_show(device, QTREE_SHOW_COUNTERS, text, TEXT, &count) == QTREE_DONE);
    CHECK(qtree_events(device, &number, &count) == QTREE_DONE && qtree_recorded(device, 0, &event) == QTREE_DONE);
    CHECK(qtree_recorded_line(device, 0, text, TEXT, &count) == QTREE_DONE);
    CHECK(qtree_recorded_script(device, text, TEXT, &count) == QTREE_DONE);
    CHECK(qtree_last_noted(device, &number, &count) == QTREE_DONE && qtree_last_event(device, 0, &event) == QTREE_DONE);
    CHECK(qtree_last_line(device, 0, text, TEXT, &count) == QTREE_DONE);
}

static void ring(struct places *places) {
    qtree_packet packet = { .len = 100 };
    qtree_count share;
    qtree_sent sent;
    size_t taken;
    CHECK(qtree_offer(&places->port, &packet) == QTREE_DONE && qtree_port_share(&places->port, &share) == QTREE_DONE);
    CHECK(qtree_take_in(&places->devices[0], &places->outlet, 0, 9, &taken) == QTREE_DONE && taken == 1);
    CHECK(qtree_outlet_share(&places->outlet, &share) == QTREE_DONE && share.packets == 1);
    CHECK(qtree_poll_buf(&places->devices[0], 0, &sent) == QTREE_DONE);
}

int main(void) {
    static const char line[] = "tc qdisc add dev a root handle 1: prio bands 3\n";
    struct places *places = mmap(NULL, PAGE, PROT_READ | PROT_WRITE, MAP_PRIVATE | MAP_ANONYMOUS, -1, 0);
    CHECK(places != MAP_FAILED);
    for (int i = 0; i < 2; i++) {
        CHECK(qtree_open(&places->devices[i], &(qtree_settings){ 1000, 100, 1514 }) == QTREE_DONE);
    }
    CHECK(qtree_ring_open(&places->port, &places->outlet, 1, 8) == QTREE_DONE);
    CHECK(mprotect(places, PAGE, PROT_READ) == 0);
    for (int i = 0; i < 2; i++) {
        qtree_fault fault;
        CHECK(qtree_open(&places->devices[i], &(qtree_settings){ 1000, 100, 1514 }) == QTREE_IS_OPEN);
        CHECK(qtree_command(&places->devices[i], (const uint8_t *)line, strlen(line), 0, &fault) == QTREE_DONE);
        CHECK(qtree_keep_last(&places->devices[i], 4) == QTREE_DONE);
        packets(&places->devices[i]);
        reads(&places->devices[i]);
    }
    ring(places);
    CHECK(mprotect(places, PAGE, PROT_READ | PROT_WRITE) == 0);
    for (int i = 0; i < 2; i++) {
        qtree_close(&places->devices[i]);
    }
    qtree_port_close(&places->port);
    qtree_outlet_close(&places->outlet);
    munmap(places, PAGE);
    puts("places: no call writes to one");
    return 0;
}
