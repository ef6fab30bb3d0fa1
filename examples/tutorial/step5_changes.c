/* Step 5: counters; a command while packets wait; and a file that is read again. */
#include "setup.h"

/* Prints how many packets were sent, wait and were lost at the device, and when the next one may go. */
static void tell(const qtree_device *device) {
    qtree_row row;
    uint64_t ready;
    qtree_totals(device, &row);
    printf("    %" PRIu64 " sent, %" PRIu64 " queued, %" PRIu64 " dropped", row.sent.packets, row.queued.packets, row.dropped.packets);
    if (qtree_ready_at(device, &ready) == QTREE_DONE) {
        printf(", ready at %" PRIu64 " ns", ready);
    }
    puts("");
}

int main(int argc, char **argv) {
    qtree_device device = QTREE_CLOSED;
    qtree_settings settings = QTREE_DEFAULTS;
    qtree_packet packet;
    if (argc < 2 || qtree_open(&device, &settings) != QTREE_DONE || !set_up(&device, argv[1], 0)) {
        return 1;
    }
    for (uint32_t buf = 0; buf < 7; buf++) {
        packet = (qtree_packet){ .len = 1000, .buf = buf };
        qtree_arrive(&device, &packet, 0);
    }
    while (qtree_poll(&device, 0, &packet) == QTREE_DONE) {
    }
    tell(&device);
    show(&device);
    puts("the rate is changed to 16mbit");
    qtree_run(&device, "tc qdisc change dev wan root tbf rate 16mbit burst 4000 latency 50ms", 0, NULL);
    tell(&device);
    for (int i = 1; i < argc; i++) {
        set_up(&device, argv[i], 0);
        tell(&device);
    }
    qtree_loss loss;
    while (qtree_reap(&device, &loss) == QTREE_DONE) {
        printf("buffer %" PRIu32 ": lost, %s\n", loss.packet.buf, qtree_code_name(loss.cause));
    }
    qtree_close(&device);
    return 0;
}
