/* The longest arrivals that were found. */
#include "longest.h"

#define FILTERS 255

static qtree_packet packet;

static void arrive(void) { MUST(qtree_arrive(&device, &packet, now) == QTREE_DONE); }

static void first_at_a_pfifo(void) {
    open_device(1514);
    packet = (qtree_packet){ .len = 1000 };
    arrive();
}

/* No filter but the last one takes the packet; each has another pair of prefix lengths. */
static void filters_of_all_shapes(void) {
    open_device(1514);
    tc("qdisc add dev d root handle 1: drr");
    tc("class add dev d parent 1: classid 1:1 drr");
    for (uint32_t at = 1; at <= FILTERS; at++) {
        tc("filter add dev d parent 1: protocol ip prio %u flower dst_ip 10.%u.0.0/%u src_ip 10.%u.0.0/%u classid 1:1", at, at,
           1 + at % 32, at, 1 + at / 32);
    }
    tc("filter add dev d parent 1: protocol all prio 65535 flower classid 1:1");
    packet = (qtree_packet){ .len = 100, .family = 4, .proto = 17, .src_low = 0xf0000000, .dst_low = 0xf0000000, .dport = 60000 };
    arrive();
}

/* No filter but the last one takes the packet; each has values of its own in each of the five keys. */
static void filters_of_all_keys(void) {
    open_device(1514);
    tc("qdisc add dev d root handle 1: drr");
    tc("class add dev d parent 1: classid 1:1 drr");
    for (uint32_t at = 1; at <= FILTERS; at++) {
        tc("filter add dev d parent 1: protocol ip prio %u flower ip_proto %x src_ip 10.%u.0.0/%u dst_ip 10.%u.0.0/%u src_port %u dst_port %u "
           "classid 1:1",
           at, at, at, 16 + at % 17, at, 16 + at / 17, 2 * at, 2 * at);
    }
    tc("filter add dev d parent 1: protocol all prio 65535 flower classid 1:1");
    packet = (qtree_packet){ .len = 100, .family = 4, .proto = 99, .src_low = 0x0a800001, .dst_low = 0x0a400001, .sport = 301, .dport = 301 };
    arrive();
}

static void filters_by_port(void) {
    open_device(1514);
    tc("qdisc add dev d root handle 1: drr");
    tc("class add dev d parent 1: classid 1:1 drr");
    for (uint32_t at = 1; at <= FILTERS; at++) {
        tc("filter add dev d parent 1: protocol ip prio %u flower ip_proto udp dst_port %u classid 1:1", at, at);
    }
    tc("filter add dev d parent 1: protocol all prio 65535 flower classid 1:1");
    packet = (qtree_packet){ .len = 100, .family = 4, .proto = 17, .dport = 60000 };
    arrive();
}

static void full_places(const char *kind, uint32_t packets) {
    open_device(1514);
    tc("qdisc add dev d root handle 1: %s limit 10000000", kind);
    for (uint32_t at = 0; at < packets; at++) {
        arrives(at, 100);
    }
    packet = (qtree_packet){ .len = 100 };
}

static void pfifo_of_512(void) { full_places("pfifo", 512); }

static void pfifo_that_doubles(void) { full_places("pfifo", 1 << 20); }

static void flows_that_double(void) { full_places("fq_codel", 1 << 20); }

static void batch(void) {
    open_device(1514);
    tc("qdisc add dev d root handle 1: fq_codel limit 20000 drop_batch 10000 noecn");
    for (uint32_t at = 0; at < 20000; at++) {
        arrives(0, 100);
    }
    packet = (qtree_packet){ .len = 100, .hash = 1 };
}

const struct row arrival_rows[] = {
    { "arrive", "at a pfifo with a packet", first_at_a_pfifo, arrive },
    { "arrive-ports", "past 255 filters by port", filters_by_port, arrive },
    { "arrive-shapes", "past 255 filters of as many shapes", filters_of_all_shapes, arrive },
    { "arrive-keys", "past 255 filters of as many values of each key", filters_of_all_keys, arrive },
    { "arrive-512", "at a pfifo that doubles its 512 places", pfifo_of_512, arrive },
    { "arrive-doubles", "at a pfifo that doubles its 1,048,576 places", pfifo_that_doubles, arrive },
    { "arrive-flows", "at an fq_codel with 1,048,576 packets", flows_that_double, arrive },
    { "arrive-batch", "above the limit of an fq_codel with drop_batch 10000", batch, arrive },
    { 0 },
};
