#include "qtree.h"
#include <stdio.h>

int main(void) {
    const char *line = "tc qdisc add dev wan root handle 1: tbf rate 8mbit burst 2000 latency 50ms";
    const qtree_settings settings = QTREE_DEFAULTS;
    qtree_device device = QTREE_CLOSED;
    if (qtree_open(&device, &settings) != QTREE_DONE || qtree_run(&device, line, 0, NULL) != QTREE_DONE) {
        return 1;
    }
    for (uint32_t buf = 0; buf < 3; buf++) {
        qtree_packet packet = { .len = 1000, .buf = buf };
        qtree_arrive(&device, &packet, 0);
    }
    uint64_t now;
    while (qtree_ready_at(&device, &now) == QTREE_DONE) {
        qtree_packet packet;
        if (qtree_poll(&device, now, &packet) == QTREE_DONE) {
            printf("%u at %llu\n", packet.buf, (unsigned long long)now);
        }
    }
    qtree_loss loss;
    while (qtree_reap(&device, &loss) == QTREE_DONE) {
        printf("%u lost: %s\n", loss.packet.buf, qtree_code_sentence(loss.cause));
    }
    qtree_close(&device);
    return 0;
}
