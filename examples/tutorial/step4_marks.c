/* Step 4: packets with headers. CoDel marks those that waited for too long, and the program writes each mark into the packet's bytes. */
#include "qtree.h"

#include <inttypes.h>
#include <stdio.h>
#include <string.h>

enum { PACKETS = 10, LEN = 1000, CE = 3 };

/* An IPv4 header of a UDP packet from 10.0.0.1 to 10.0.0.2, with its checksum. The second byte has the ECN codepoint 2 (ECT): the
 * connection takes marks. */
static const uint8_t head[20] = { 0x45, 0x02, 0x03, 0xe8, 0, 0, 0, 0, 64, 17, 0x63, 0x01, 10, 0, 0, 1, 10, 0, 0, 2 };

static uint8_t frames[PACKETS][LEN];

int main(void) {
    qtree_device device = QTREE_CLOSED;
    qtree_settings settings = QTREE_DEFAULTS;
    if (qtree_open(&device, &settings) != QTREE_DONE ||
        qtree_run(&device, "tc qdisc add dev wan root handle 1: fq_codel target 5ms interval 100ms", 0, NULL) != QTREE_DONE) {
        return 1;
    }
    for (uint32_t buf = 0; buf < PACKETS; buf++) {
        memcpy(frames[buf], head, sizeof head);
        qtree_packet packet = { .len = LEN, .buf = buf };
        qtree_read_head(frames[buf], LEN, 0, &packet);
        qtree_arrive(&device, &packet, 0);
    }
    for (uint64_t ms = 10; ms <= 210; ms += 100) {
        qtree_packet packet;
        if (qtree_poll(&device, ms * 1000000, &packet) == QTREE_DONE) {
            uint8_t *bytes = frames[packet.buf];
            if (packet.ecn == CE) {
                qtree_mark_head(bytes, packet.len);
            }
            printf("after %" PRIu64 " ms: packet %" PRIu32 ", second byte %02x, checksum %02x%02x\n", ms, packet.buf, bytes[1], bytes[10],
                   bytes[11]);
        }
    }
    qtree_close(&device);
    return 0;
}
