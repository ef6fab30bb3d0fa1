/* Uses each initializer and each inline function of the header, in the words that C99 and C++98 share. */
#include "qtree.h"

#include <stdio.h>

static int differs;

static void is_true(bool holds, const char *what) {
    if (!holds) {
        differs = 1;
        printf("%s\n", what);
    }
}

static void ranges(void) {
    qtree_packet packet;
    memset(&packet, 0, sizeof packet);
    const char *name = qtree_out_of_range(&packet, 0);
    is_true(name && strcmp(name, "len") == 0, "a packet without a length is in range");
    packet.len = 100;
    is_true(!qtree_out_of_range(&packet, QTREE_MOMENT_MAX), "a packet is out of range");
}

static void names(void) {
    uint64_t lost[QTREE_LOST_MOST + 1];
    is_true(sizeof lost == 80 && qtree_is_loss(QTREE_LOST_PURGED) && !qtree_is_loss(QTREE_DONE), "causes");
    is_true(strcmp(qtree_code_name(QTREE_IDLE), "Idle") == 0 && strlen(qtree_code_sentence(QTREE_IDLE)) > 0, "answers");
    is_true(strcmp(qtree_fault_name(QTREE_FAULT_TWICE), "Twice") == 0, "faults");
    is_true(strcmp(qtree_kind_name(QTREE_DRR), "drr") == 0, "kinds");
}

int main(void) {
    qtree_device device = QTREE_CLOSED;
    qtree_port port = QTREE_CLOSED;
    qtree_outlet outlet = QTREE_CLOSED;
    qtree_settings settings = QTREE_DEFAULTS;
    is_true(qtree_open(&device, &settings) == QTREE_DONE, "a device does not open");
    is_true(qtree_run(&device, "tc qdisc add dev a root handle 1: drr", 0, QTREE_NULL) == QTREE_DONE, "a line is not done");
    qtree_port_close(&port);
    qtree_outlet_close(&outlet);
    qtree_close(&device);
    ranges();
    names();
    return differs;
}
