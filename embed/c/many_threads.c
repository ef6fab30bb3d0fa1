/* Two senders on threads of their own and one device, as docs/EMBEDDING.md shows them. */
#include "qtree.h"
#include <pthread.h>
#include <sched.h>
#include <stdio.h>

enum { SENDERS = 2, PACKETS = 1000 };

static void *send_all(void *port) {
    for (uint32_t buf = 0; buf < PACKETS; buf++) {
        qtree_packet packet = { .len = 1000, .buf = buf };
        while (qtree_offer(port, &packet) == QTREE_FULL) {
            sched_yield();
        }
    }
    return NULL;
}

/* The turn of the thread that has the device and the outlets. */
static void turn(qtree_device *device, qtree_outlet *outlets) {
    size_t taken;
    for (int i = 0; i < SENDERS; i++) {
        qtree_take_in(device, &outlets[i], 0, 32, &taken);
    }
    qtree_packet packet;
    while (qtree_poll(device, 0, &packet) == QTREE_DONE) {
        /* transmits packet.buf of the sender packet.port */
    }
}

int main(void) {
    qtree_device device = QTREE_CLOSED;
    qtree_port ports[SENDERS] = { QTREE_CLOSED };
    qtree_outlet outlets[SENDERS] = { QTREE_CLOSED };
    pthread_t threads[SENDERS];
    if (qtree_open(&device, &(qtree_settings){ .txqueuelen = 1000, .mtu = 1514 }) != QTREE_DONE) {
        return 1;
    }
    for (uint32_t i = 0; i < SENDERS; i++) {
        if (qtree_ring_open(&ports[i], &outlets[i], i, 64) != QTREE_DONE ||
            pthread_create(&threads[i], NULL, send_all, &ports[i]) != 0) {
            return 1;
        }
    }
    qtree_row row;
    do {
        turn(&device, outlets);
        qtree_totals(&device, &row);
    } while (row.arrived.packets < SENDERS * PACKETS);
    for (int i = 0; i < SENDERS; i++) {
        pthread_join(threads[i], NULL);
        qtree_port_close(&ports[i]);
        qtree_outlet_close(&outlets[i]);
    }
    qtree_close(&device);
    printf("%d of %d sent\n", (int)row.sent.packets, (int)row.arrived.packets);
    return 0;
}
