/* What qtree_worst and qtree_latest answer of a class of a drr, by figures, and where nothing is promised. */
#include "check.h"
#include "qtree.h"

#include <stdbool.h>

static qtree_device device = QTREE_CLOSED;

static void tc(const char *line) { CHECK(qtree_run(&device, line, 0, NULL) == QTREE_DONE); }

/* A packet for the class of this number. */
static qtree_code arrive(uint16_t class, uint16_t len) {
    qtree_packet packet = { .len = len, .port = class, .sport = class };
    return qtree_arrive(&device, &packet, 0);
}

/* The answer for the class 2:1. */
static void must_tell(uint64_t bytes, uint64_t ns, uint64_t late) {
    qtree_delay delay = { 0 };
    CHECK(qtree_worst(&device, QTREE_CLASS, 2, 1, &delay) == QTREE_DONE);
    CHECK(delay.bytes == bytes && delay.ns == ns && delay.late == late);
}

/* A class of 3000 of 4500 on a link of 20 Mbit/s, and on none. */
static void ask_figures(void) {
    CHECK(qtree_open(&device, &(qtree_settings){ 1000, 0, 1514 }) == QTREE_DONE);
    tc("tc qdisc add dev wan root handle 1: tbf rate 20mbit burst 1640 limit 9000");
    tc("tc qdisc add dev wan parent 1:1 handle 2: drr");
    tc("tc class add dev wan parent 2: classid 2:1 drr quantum 3000");
    must_tell(1515514, 606205600, 50399);
    tc("tc class add dev wan parent 2: classid 2:2 drr quantum 1500");
    tc("tc qdisc add dev wan parent 2:1 handle 3: bfifo limit 1500");
    must_tell(7527, 3010800, 50399);
    tc("tc qdisc del dev wan root");
    tc("tc qdisc add dev wan root handle 2: drr");
    tc("tc class add dev wan parent 2: classid 2:1 drr quantum 3000");
    tc("tc class add dev wan parent 2: classid 2:2 drr quantum 1500");
    tc("tc qdisc add dev wan parent 2:1 handle 3: pfifo limit 2");
    must_tell(3028 + 2 * 1500 + 1500 + 1513, UINT64_MAX, UINT64_MAX);
    qtree_close(&device);
}

/* What is answered of a packet of this length in the class 2:1, or with 0 of the last one there. */
static void must_leave(uint16_t len, uint64_t bytes, uint64_t at, uint64_t late) {
    qtree_departure departure = { 0 };
    CHECK(qtree_latest(&device, QTREE_CLASS, 2, 1, len, &departure) == QTREE_DONE);
    CHECK(departure.bytes == bytes && departure.at == at && departure.late == late);
}

static void must_poll(uint64_t now, uint16_t port, uint64_t len) {
    qtree_sent sent = { 0 };
    CHECK(qtree_poll_buf(&device, now, &sent) == QTREE_DONE && sent.port == port && sent.len == len);
}

/* Classes that get 3000 and 1500 of every 4500 bytes. */
static void add_two_classes(void) {
    tc("tc class add dev wan parent 2: classid 2:1 drr quantum 3000");
    tc("tc class add dev wan parent 2: classid 2:2 drr quantum 1500");
    tc("tc filter add dev wan parent 2: prio 1 flower src_port 1 classid 2:1");
    tc("tc filter add dev wan parent 2: prio 2 flower src_port 2 classid 2:2");
}

/* The last byte of the class 2:1 is one more than its deficit. It waits for a grant, in which the other class sends its quantum; what that may
 * send at first comes before it, too. What is answered after each packet is what is left of the first answer. */
static void leave_in_turn(void) {
    static const uint16_t lens[] = { 1500, 1500, 1 };
    static const uint64_t bytes[] = { 3000, 4500, 6001 };
    static const struct { uint16_t port, len; } sent[] = { { 2, 1500 }, { 1, 1500 }, { 1, 1500 }, { 2, 1500 }, { 1, 1 } };
    uint64_t left = bytes[2];
    CHECK(qtree_open(&device, &(qtree_settings){ 1000, 0, 1514 }) == QTREE_DONE);
    tc("tc qdisc add dev wan root handle 2: drr");
    add_two_classes();
    must_leave(1500, 1500, UINT64_MAX, UINT64_MAX);
    for (unsigned i = 0; i < 2; i++) {
        CHECK(arrive(2, 1500) == QTREE_DONE);
    }
    for (unsigned i = 0; i < sizeof lens / sizeof lens[0]; i++) {
        must_leave(lens[i], bytes[i], UINT64_MAX, UINT64_MAX);
        CHECK(arrive(1, lens[i]) == QTREE_DONE);
    }
    for (unsigned i = 0; i < sizeof sent / sizeof sent[0]; i++) {
        must_leave(0, left, UINT64_MAX, UINT64_MAX);
        must_poll(0, sent[i].port, sent[i].len);
        left -= sent[i].len;
    }
    CHECK(left == 0);
    qtree_close(&device);
}

/* A poll between the answer and the arrival leaves nothing in the class: so it is last in the list as the packet comes, and another answer counts. */
static void ask_anew(void) {
    CHECK(qtree_open(&device, &(qtree_settings){ 1000, 0, 1514 }) == QTREE_DONE);
    tc("tc qdisc add dev wan root handle 2: drr");
    add_two_classes();
    CHECK(arrive(1, 1) == QTREE_DONE && arrive(2, 1500) == QTREE_DONE);
    must_leave(999, 1000, UINT64_MAX, UINT64_MAX);
    must_poll(0, 1, 1);
    must_leave(999, 2499, UINT64_MAX, UINT64_MAX);
    CHECK(arrive(1, 999) == QTREE_DONE);
    must_leave(0, 2499, UINT64_MAX, UINT64_MAX);
    must_poll(0, 2, 1500);
    must_poll(0, 1, 999);
    qtree_close(&device);
}

/* The drr holds a packet of the other class, which has to wait for the tbf. The packet of the class 2:1 leaves at the nanosecond that was
 * answered. */
static void leave_in_time(void) {
    const uint64_t late = 1119999, at = 13280000;
    qtree_sent sent;
    CHECK(qtree_open(&device, &(qtree_settings){ 1000, 0, 1500 }) == QTREE_DONE);
    tc("tc qdisc add dev wan root handle 1: tbf rate 1mbit burst 1640 limit 9000");
    tc("tc qdisc add dev wan parent 1:1 handle 2: drr");
    add_two_classes();
    CHECK(arrive(2, 1500) == QTREE_DONE && arrive(2, 1000) == QTREE_DONE);
    must_poll(0, 2, 1500);
    CHECK(qtree_poll_buf(&device, 0, &sent) == QTREE_LATER);
    must_leave(800, 1800, at, late);
    CHECK(arrive(1, 800) == QTREE_DONE);
    must_leave(0, 1800, at, late);
    must_poll(6880000, 2, 1000);
    must_leave(0, 800, at, late);
    CHECK(qtree_poll_buf(&device, at - 1, &sent) == QTREE_LATER);
    must_poll(at, 1, 800);
    qtree_close(&device);
}

/* Whether this line is done, and qtree_worst then answers the class major:minor something; qtree_latest does so, too, or neither. */
static bool is_answered(const char *line, uint16_t major, uint16_t minor) {
    qtree_delay delay;
    qtree_departure departure;
    tc(line);
    qtree_code code = qtree_worst(&device, QTREE_CLASS, major, minor, &delay);
    CHECK(qtree_latest(&device, QTREE_CLASS, major, minor, 0, &departure) == code);
    CHECK(code == QTREE_DONE || code == QTREE_NOTHING);
    return code == QTREE_DONE;
}

static void ask_elsewhere(void) {
    CHECK(qtree_open(&device, &(qtree_settings){ 1000, 0, 1514 }) == QTREE_DONE);
    tc("tc qdisc add dev wan root handle 1: tbf rate 1mbit burst 1640 limit 9000");
    tc("tc qdisc add dev wan parent 1:1 handle 2: drr");
    CHECK(is_answered("tc class add dev wan parent 2: classid 2:1 drr", 2, 1));
    CHECK(!is_answered("tc qdisc add dev wan parent 2:1 handle 3: fq_codel", 2, 1));
    tc("tc qdisc del dev wan parent 2:1");
    tc("tc qdisc add dev wan parent 2:1 handle 3: drr");
    CHECK(!is_answered("tc class add dev wan parent 3: classid 3:1 drr", 3, 1));
    CHECK(!is_answered("tc class add dev wan parent 3: classid 3:2 drr", 2, 1));
    tc("tc qdisc del dev wan parent 2:1");
    CHECK(!is_answered("tc qdisc change dev wan root tbf rate 1mbit burst 1514 limit 9000", 2, 1));
    CHECK(is_answered("tc qdisc change dev wan root tbf rate 1mbit burst 1515 limit 9000", 2, 1));
    tc("tc class add dev wan parent 2: classid 2:2 drr");
    bool is_told = is_answered("tc qdisc add dev wan parent 2:2 handle 4: tbf rate 1mbit burst 1514 limit 9000", 2, 1);
    CHECK(!is_told);
    qtree_close(&device);
}

int main(void) {
    ask_figures();
    leave_in_turn();
    ask_anew();
    leave_in_time();
    ask_elsewhere();
    puts("class_delay: each class waits as long as was promised");
    return 0;
}
