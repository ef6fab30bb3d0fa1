/* Packets that are placed in a ring by qtree_offer_many: as many as fit, in order, up to the first that is out of range. */
#include "check.h"
#include "qtree.h"

enum { PLACES = 40, MANY = 100, PORT = 5 };

static qtree_packet packets[MANY];

static void make_packets(void) {
    for (uint32_t i = 0; i < MANY; i++) {
        packets[i] = (qtree_packet){ .len = (uint16_t)(100 + i), .buf = i, .port = 9, .number = 9, .family = 6, .src_high = i, .hash = i };
    }
}

/* Takes in and polls what is in the ring: these packets, in this order, with the port's index and the numbers from this one on. */
static void has(qtree_device *device, qtree_outlet *outlet, uint32_t first, size_t count, uint64_t number) {
    qtree_packet given[MANY];
    size_t taken;
    CHECK(qtree_take_in(device, outlet, 0, MANY, &taken) == QTREE_DONE && taken == count);
    CHECK(qtree_poll_many(device, 0, given, count, &taken) == QTREE_DONE && taken == count);
    for (uint32_t i = 0; i < count; i++) {
        CHECK(given[i].buf == first + i && given[i].len == 100 + first + i && given[i].src_high == first + i);
        CHECK(given[i].port == PORT && given[i].number == number + i);
    }
}

static void places_what_fits(qtree_device *device, qtree_port *port, qtree_outlet *outlet) {
    qtree_count share;
    size_t placed = 7;
    CHECK(qtree_offer_many(port, NULL, 0, &placed) == QTREE_DONE && placed == 0);
    for (size_t count = 1; count <= PLACES; count++) {
        qtree_count before;
        CHECK(qtree_port_share(port, &before) == QTREE_DONE);
        CHECK(qtree_offer_many(port, packets, count, &placed) == QTREE_DONE && placed == count);
        has(device, outlet, 0, count, before.packets + 1);
    }
    CHECK(qtree_port_share(port, &share) == QTREE_DONE && share.packets == PLACES * (PLACES + 1) / 2);
    CHECK(qtree_offer_many(port, packets, MANY, &placed) == QTREE_FULL && placed == PLACES);
    CHECK(qtree_offer_many(port, packets + placed, MANY - placed, &placed) == QTREE_FULL && placed == 0);
    has(device, outlet, 0, PLACES, share.packets + 1);
    CHECK(packets[3].port == 9 && packets[3].number == 9);
}

/* What stands before a packet that is out of range is placed, whether it is in the first 16 or not, and nothing behind it. */
static void stops_where_one_is_out_of_range(qtree_device *device, qtree_port *port, qtree_outlet *outlet) {
    static const size_t bad[] = { 0, 1, 15, 16, 17, 31, 32, PLACES - 1 };
    for (size_t i = 0; i < sizeof bad / sizeof bad[0]; i++) {
        qtree_count before, after;
        size_t placed = 7;
        packets[bad[i]].prio = 16;
        CHECK(qtree_port_share(port, &before) == QTREE_DONE);
        CHECK(qtree_offer_many(port, packets, PLACES, &placed) == QTREE_OUT_OF_RANGE && placed == bad[i]);
        CHECK(qtree_port_share(port, &after) == QTREE_DONE && after.packets == before.packets + placed);
        packets[bad[i]].prio = 0;
        has(device, outlet, 0, placed, before.packets + 1);
    }
    /* A ring that is full before that packet is reached says so. */
    size_t placed = 7;
    packets[PLACES].ecn = 4;
    CHECK(qtree_offer_many(port, packets, PLACES + 1, &placed) == QTREE_OUT_OF_RANGE && placed == PLACES);
    CHECK(qtree_offer_many(port, packets, 1, &placed) == QTREE_FULL && placed == 0);
    CHECK(qtree_offer_many(port, packets + PLACES, 1, &placed) == QTREE_OUT_OF_RANGE && placed == 0);
    CHECK(qtree_offer_many(port, packets + PLACES - 1, 2, &placed) == QTREE_FULL && placed == 0);
}

int main(void) {
    qtree_device device = QTREE_CLOSED;
    qtree_port port = QTREE_CLOSED;
    qtree_outlet outlet = QTREE_CLOSED;
    size_t placed = 7;
    make_packets();
    CHECK(qtree_offer_many(&port, packets, MANY, &placed) == QTREE_IS_CLOSED && placed == 0);
    CHECK(qtree_open(&device, &(qtree_settings){ .txqueuelen = 1000, .mtu = 1514 }) == QTREE_DONE);
    CHECK(qtree_ring_open(&port, &outlet, PORT, PLACES) == QTREE_DONE);
    places_what_fits(&device, &port, &outlet);
    stops_where_one_is_out_of_range(&device, &port, &outlet);
    qtree_port_close(&port);
    qtree_outlet_close(&outlet);
    qtree_close(&device);
    puts("offers: as many as fit, up to the first that is out of range");
    return 0;
}
