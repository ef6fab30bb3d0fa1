/* Step 1: three packets through a token bucket, at times that the program makes up. */
#include "qtree.h"

#include <inttypes.h>
#include <stdio.h>

/* Polls once, and prints what the poll answered. */
static void poll_at(qtree_device *device, uint64_t now) {
    qtree_packet packet;
    qtree_code code = qtree_poll(device, now, &packet);
    if (code == QTREE_DONE) {
        printf("at %" PRIu64 " ns: packet %" PRIu32 "\n", now, packet.buf);
    } else {
        printf("at %" PRIu64 " ns: %s\n", now, qtree_code_name(code));
    }
}

int main(void) {
    qtree_device device = QTREE_CLOSED;
    qtree_settings settings = QTREE_DEFAULTS;
    const char *line = "tc qdisc add dev wan root handle 1: tbf rate 8mbit burst 2000 latency 50ms";
    if (qtree_open(&device, &settings) != QTREE_DONE || qtree_run(&device, line, 0, NULL) != QTREE_DONE) {
        return 1;
    }
    for (uint32_t buf = 0; buf < 3; buf++) {
        qtree_packet packet = { .len = 1000, .buf = buf };
        qtree_arrive(&device, &packet, 0);
    }
    poll_at(&device, 0);
    poll_at(&device, 0);
    poll_at(&device, 0);
    uint64_t ready;
    if (qtree_ready_at(&device, &ready) == QTREE_DONE) {
        printf("ready at %" PRIu64 " ns\n", ready);
        poll_at(&device, ready - 1);
        poll_at(&device, ready);
        poll_at(&device, ready);
    }
    qtree_close(&device);
    return 0;
}
