/* Step 3: a buffer for each packet, and a flood that an fq_codel with a small limit does not let past its own flow. */
#include "buffers.h"

#include <inttypes.h>
#include <stdio.h>

/* A packet of a flow arrives. The program keeps its buffer for each answer, until a poll or a reap hands the packet back. */
static void arrive(struct buffers *buffers, qtree_device *device, uint32_t flow) {
    uint32_t buf = buffers_take(buffers);
    qtree_packet packet = { .len = 1000, .buf = buf, .hash = flow };
    qtree_code code = qtree_arrive(device, &packet, 0);
    printf("flow %" PRIu32 ", buffer %" PRIu32 ": %s\n", flow, buf, qtree_code_name(code));
    if (code != QTREE_DONE && !qtree_is_loss(code)) {
        buffers_give(buffers, buf); /* the packet has not arrived, as when an allocation failed */
    }
    buffers_reap(buffers, device);
}

int main(void) {
    qtree_device device = QTREE_CLOSED;
    qtree_settings settings = QTREE_DEFAULTS;
    struct buffers buffers = { .count = 0 };
    const char *line = "tc qdisc add dev wan root handle 1: fq_codel limit 3";
    if (qtree_open(&device, &settings) != QTREE_DONE || qtree_run(&device, line, 0, NULL) != QTREE_DONE ||
        !buffers_grow(&buffers, &device)) {
        return 1;
    }
    printf("%zu buffers\n", buffers.count);
    for (int i = 0; i < 6; i++) {
        arrive(&buffers, &device, 1);
    }
    arrive(&buffers, &device, 2);
    qtree_packet packet;
    while (qtree_poll(&device, 0, &packet) == QTREE_DONE) {
        printf("sent: flow %" PRIu32 ", buffer %" PRIu32 "\n", packet.hash, packet.buf);
        buffers_give(&buffers, packet.buf);
    }
    printf("lost: %" PRIu64 " %s; unused: %zu of %zu buffers\n", buffers.lost[QTREE_LOST_FAT_FLOW],
           qtree_code_name(QTREE_LOST_FAT_FLOW), buffers.unused_count, buffers.count);
    qtree_close(&device);
    buffers_free(&buffers);
    return 0;
}
