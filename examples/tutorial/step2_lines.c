/* Step 2: a tree of three qdiscs, of which one line has a slip; and packets that do not leave in the order in which they came. */
#include "explain.h"
#include "qtree.h"

#include <inttypes.h>
#include <string.h>

static const char *const lines[] = {
    "tc qdisc add dev wan root handle 1: prio bands 2 priomap 1 1 1 1 1 1 0 0 1 1 1 1 1 1 1 1",
    "tc qdisc add dev wan parent 1:1 handle 2: pfifo limt 10",
    "tc qdisc add dev wan parent 1:1 handle 2: pfifo limit 10",
    "tc qdisc add dev wan parent 1:2 handle 3: fq_codel",
    "tc filter add dev wan parent 1: prio 1 protocol ip flower ip_proto udp dst_port 53 classid 1:1",
};

int main(void) {
    qtree_device device = QTREE_CLOSED;
    qtree_settings settings = QTREE_DEFAULTS;
    if (qtree_open(&device, &settings) != QTREE_DONE) {
        return 1;
    }
    for (size_t i = 0; i < sizeof lines / sizeof lines[0]; i++) {
        qtree_fault fault;
        qtree_code code = qtree_run(&device, lines[i], 0, &fault);
        if (code != QTREE_DONE) {
            explain(lines[i], strlen(lines[i]), i + 1, code, &fault);
        }
    }
    const qtree_packet download = { .len = 1500, .buf = 1 };
    const qtree_packet voice = { .len = 200, .buf = 2, .prio = 6 };
    const qtree_packet lookup = { .len = 80, .buf = 3, .family = 4, .proto = 17, .dport = 53 };
    qtree_arrive(&device, &download, 0);
    qtree_arrive(&device, &voice, 0);
    qtree_arrive(&device, &lookup, 0);
    qtree_packet packet;
    while (qtree_poll(&device, 0, &packet) == QTREE_DONE) {
        printf("packet %" PRIu32 ", %d bytes\n", packet.buf, packet.len);
    }
    qtree_close(&device);
    return 0;
}
