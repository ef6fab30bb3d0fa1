/* The longest commands, set-ups and questions that were found. */
#include "longest.h"

#include <stdio.h>
#include <stdlib.h>

#define DRRS 96
#define PLACES 256

static char *text;
static size_t length;

/* A file of drrs in the classes of another one, each with 256 filters for the ports from this one on. */
static void file_of_filters(uint32_t port) {
    size_t room = 1 << 22;
    text = text ? text : malloc(room);
    MUST(text);
    length = (size_t)snprintf(text, room, "tc qdisc add dev d root handle 1: drr\n");
    for (uint32_t at = 1; at <= DRRS; at++) {
        length += (size_t)snprintf(text + length, room - length, "tc class add dev d parent 1: classid 1:%x drr\n", at);
        length += (size_t)snprintf(text + length, room - length, "tc qdisc add dev d parent 1:%x handle %x: drr\n", at, at + 16);
        length += (size_t)snprintf(text + length, room - length, "tc class add dev d parent %x: classid %x:1 drr\n", at + 16, at + 16);
        for (uint32_t filter = 1; filter <= PLACES; filter++) {
            length += (size_t)snprintf(text + length, room - length,
                                       "tc filter add dev d parent %x: prio %u flower dst_port %u classid %x:1\n", at + 16, filter,
                                       port + filter, at + 16);
        }
    }
}

static void set_up(void) {
    qtree_report report;
    qtree_undone undone[1];
    MUST(qtree_set_up(&device, (const uint8_t *)text, length, now, &report, undone, 1) == QTREE_DONE);
}

static void new_file(void) {
    open_device(1514);
    file_of_filters(0);
}

static void same_file(void) {
    new_file();
    set_up();
}

static void changed_file(void) {
    same_file();
    file_of_filters(1000);
}

static void million_queued(void) {
    open_device(1514);
    tc("qdisc add dev d root handle 1: pfifo limit 10000000");
    for (uint32_t at = 0; at < 1000000; at++) {
        arrives(0, 100);
    }
}

static void delete_root(void) { tc("qdisc del dev d root"); }

static void add_flows(void) { tc("qdisc add dev d root handle 1: fq_codel flows 65536"); }

static void empty_device(void) { open_device(1514); }

static void listed_flows(void) {
    open_device(1514);
    tc("qdisc add dev d root handle 1: fq_codel limit 1000000 flows 65536");
    for (uint32_t at = 0; at < 65536; at++) {
        arrives(at, 100);
    }
}

static void ask_oldest(void) {
    uint64_t moment;
    MUST(qtree_oldest(&device, QTREE_ROOT, 0, 0, &moment) == QTREE_DONE);
}

static void busy_classes(void) {
    open_device(1514);
    tc("qdisc add dev d root handle 1: tbf rate 1mbit burst 200000 latency 50ms");
    tc("qdisc add dev d parent 1:1 handle 2: drr");
    for (uint32_t at = 1; at <= 250; at++) {
        tc("class add dev d parent 2: classid 2:%x drr", at);
        tc("filter add dev d parent 2: prio %u flower dst_port %u classid 2:%x", at, at, at);
        arrives(at, 1514);
    }
}

static void ask_latest(void) {
    qtree_departure departure;
    MUST(qtree_latest(&device, QTREE_CLASS, 2, 1, 1514, &departure) == QTREE_DONE);
}

static void ask_ready(void) {
    uint64_t moment;
    MUST(qtree_ready_at(&device, &moment) == QTREE_DONE);
}

static void show_filters(void) {
    static uint8_t shown[1 << 23];
    size_t needed;
    MUST(qtree_show(&device, QTREE_SHOW_FILTERS, shown, sizeof shown, &needed) == QTREE_DONE);
}

const struct row command_rows[] = {
    { "set-up", "a file of 24,865 lines: 96 drrs of 256 filters each", new_file, set_up },
    { "set-up-again", "the same file again", same_file, set_up },
    { "set-up-changed", "the same with every filter changed", changed_file, set_up },
    { "command-delete", "qdisc del of a pfifo with 1,000,000 packets", million_queued, delete_root },
    { "command-flows", "qdisc add of an fq_codel of 65,536 flows", empty_device, add_flows },
    { "oldest", "at an fq_codel of 65,536 flows with packets", listed_flows, ask_oldest },
    { "latest", "in a drr of 250 classes with packets, below a tbf", busy_classes, ask_latest },
    { "ready-at", "the same tree", busy_classes, ask_ready },
    { "show", "all of 24,576 filters", same_file, show_filters },
    { 0 },
};
