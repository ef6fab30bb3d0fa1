/* A ring by itself. What one thread offers, another takes in, while the ring is full again and again. Many packets that are offered at
 * once are placed as far as there is room, also where the ring begins again. */
#include "check.h"
#include "qtree.h"

#include <pthread.h>
#include <sched.h>

enum { PORT = 3, NUMBER = 5, LENGTH = 100, PACKETS = 1000, TRIES = 10000000, MANY = 50 };

static qtree_device device;
static qtree_port port;
static qtree_outlet outlet;

static void open_all(size_t places) {
    CHECK(qtree_open(&device, &(qtree_settings){ .txqueuelen = 1000, .mtu = 1514 }) == QTREE_DONE);
    CHECK(qtree_ring_open(&port, &outlet, PORT, places) == QTREE_DONE);
}

static bool is_all(qtree_count count, uint64_t packets) { return count.packets == packets && count.bytes == packets * LENGTH; }

/* Closes the ends and the device, once so many packets were placed, taken in and fed to the device. These come in order, with the index of
 * the port and numbers from 1 on. */
static void end(uint64_t packets) {
    qtree_count placed, taken;
    qtree_row row;
    qtree_packet given;
    CHECK(qtree_port_share(&port, &placed) == QTREE_DONE && is_all(placed, packets));
    CHECK(qtree_outlet_share(&outlet, &taken) == QTREE_DONE && is_all(taken, packets));
    CHECK(qtree_totals(&device, &row) == QTREE_DONE && is_all(row.arrived, packets));
    for (uint64_t number = 1; number <= packets; number++) {
        CHECK(qtree_poll(&device, 0, &given) == QTREE_DONE && given.port == PORT && given.number == number && given.len == LENGTH);
    }
    CHECK(qtree_poll(&device, 0, &given) == QTREE_IDLE);
    qtree_port_close(&port);
    qtree_outlet_close(&outlet);
    qtree_close(&device);
}

/* Offers a packet again and again, until so many were placed. */
static void *offer_all(void *nothing) {
    const qtree_packet given = { .len = LENGTH, .port = 7, .number = NUMBER };
    qtree_count share = { 0, 0 };
    for (int tried = 0; tried < TRIES && share.packets < PACKETS; tried++) {
        qtree_code code = qtree_offer(&port, &given);
        CHECK(code == QTREE_DONE || code == QTREE_FULL);
        if (code == QTREE_FULL) {
            sched_yield();
        }
        CHECK(qtree_port_share(&port, &share) == QTREE_DONE);
    }
    return nothing;
}

/* Takes in until so many packets were taken, three at a time at most. */
static void *take_all(void *nothing) {
    qtree_count share = { 0, 0 };
    for (int tried = 0; tried < TRIES && share.packets < PACKETS; tried++) {
        size_t taken;
        CHECK(qtree_take_in(&device, &outlet, 0, 3, &taken) == QTREE_DONE && taken <= 3);
        if (taken == 0) {
            sched_yield();
        }
        CHECK(qtree_outlet_share(&outlet, &share) == QTREE_DONE);
    }
    return nothing;
}

static void goes_between_threads(void) {
    pthread_t sender, taker;
    open_all(4);
    CHECK(pthread_create(&sender, NULL, offer_all, NULL) == 0 && pthread_create(&taker, NULL, take_all, NULL) == 0);
    CHECK(pthread_join(sender, NULL) == 0 && pthread_join(taker, NULL) == 0);
    end(PACKETS);
}

/* Offers so many packets at once, of which this number is placed. */
static void offers(size_t count, size_t wanted) {
    static qtree_packet packets[MANY];
    size_t placed = 7;
    for (size_t i = 0; i < MANY; i++) {
        packets[i] = (qtree_packet){ .len = LENGTH, .port = 7, .number = NUMBER };
    }
    CHECK(qtree_offer_many(&port, packets, count, &placed) == (wanted < count ? QTREE_FULL : QTREE_DONE) && placed == wanted);
}

/* Takes in 30 packets that wait. */
static void takes_30(void) {
    size_t taken = 7;
    CHECK(qtree_take_in(&device, &outlet, 0, 30, &taken) == QTREE_DONE && taken == 30);
}

static void takes_many_at_once(void) {
    open_all(40);
    offers(MANY, 40);
    takes_30();
    offers(20, 20);
    takes_30();
    end(60);
}

int main(void) {
    goes_between_threads();
    takes_many_at_once();
    puts("ring: 1000 packets between threads, and 60 of 70 that were offered at once");
    return 0;
}
