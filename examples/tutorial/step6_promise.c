/* Step 6: what the device promises, and what becomes of it where polls are late. */
#include "lateness.h"
#include "setup.h"

enum { SECOND = 1000000000 };

/* Polls for a second, and each time so late after the device was ready. Returns the bytes that the first customer sent. A packet that was
 * sent arrives again, so both customers have packets all the time. */
static uint64_t bytes_in_a_second(qtree_device *device, uint64_t late, uint64_t *now, struct lateness *lateness) {
    uint64_t ready, bytes = 0, end = *now + SECOND;
    while (*now < end && qtree_ready_at(device, &ready) == QTREE_DONE) {
        qtree_packet packet;
        lateness_ask(lateness, device, *now);
        *now = ready + late;
        lateness_count(lateness, *now);
        while (qtree_poll(device, *now, &packet) == QTREE_DONE) {
            bytes += packet.sport == 1 ? packet.len : 0;
            qtree_arrive(device, &packet, *now);
        }
    }
    return bytes;
}

/* Compares what the first customer gets with what it is promised, for polls that are in time, just in time, and too late. */
static void try_lateness(qtree_device *device, const qtree_promise *promise, uint64_t allowed) {
    uint64_t now = 0;
    qtree_packet packet = { .len = 1500 };
    for (uint16_t i = 0; i < 4; i++) {
        packet.sport = 1 + i % 2;
        qtree_arrive(device, &packet, now);
    }
    while (qtree_poll(device, now, &packet) == QTREE_DONE) { /* the promise counts from a poll that gives nothing */
        qtree_arrive(device, &packet, now);
    }
    for (uint64_t i = 0; i <= 2; i++) {
        struct lateness lateness = { .due = UINT64_MAX };
        uint64_t begin = now, bytes = bytes_in_a_second(device, i * allowed, &now, &lateness);
        uint64_t promised = promise->rate * (now - begin) / 8 / SECOND - promise->slack;
        printf("polls up to %" PRIu64 " ns late: %" PRIu64 " bytes sent, %" PRIu64 " promised%s\n", lateness.greatest, bytes, promised,
               lateness.greatest > allowed ? " to those who poll in time" : "");
    }
}

int main(int argc, char **argv) {
    qtree_device device = QTREE_CLOSED;
    qtree_settings settings = QTREE_DEFAULTS;
    qtree_promise promise;
    qtree_delay delay;
    uint64_t late;
    if (argc != 3 || qtree_open(&device, &settings) != QTREE_DONE || !set_up(&device, argv[1], 0)) {
        return 1;
    }
    if (qtree_service(&device, QTREE_CLASS, 6, 1, &promise) == QTREE_DONE &&
        qtree_lateness(&device, QTREE_CLASS, 6, 1, &late) == QTREE_DONE) {
        printf("class 6:1: %" PRIu64 " bit/s, less %" PRIu64 " bytes, if polls are at most %" PRIu64 " ns late\n", promise.rate,
               promise.slack, late);
        try_lateness(&device, &promise, late);
    } else {
        puts("class 6:1: nothing is promised");
    }
    if (set_up(&device, argv[2], 0) && qtree_worst(&device, QTREE_CLASS, 3, 1, &delay) == QTREE_DONE) {
        printf("class 3:1: gone after %" PRIu64 " bytes, in %" PRIu64 " ns and the lateness, if that is at most %" PRIu64 " ns\n",
               delay.bytes, delay.ns, delay.late);
    }
    qtree_close(&device);
    return 0;
}
