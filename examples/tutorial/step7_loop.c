/* Step 7: an event loop. Twenty frames come in at once from a socket, and leave by another at the rate of the device. */
#include "way.h"

#include <sys/socket.h>

enum { FRAMES = 20, FRAME_LEN = 1000 };

int main(int argc, char **argv) {
    struct way way = { .settings = QTREE_DEFAULTS, .device = QTREE_CLOSED, .lateness = { .due = UINT64_MAX } };
    int in[2], out[2], timer = timerfd_create(CLOCK_MONOTONIC, 0);
    if (argc != 2 || qtree_open(&way.device, &way.settings) != QTREE_DONE || !way_set_up(&way, argv[1], now_ns()) ||
        !buffers_grow(&way.buffers, &way.device) || timer < 0 || socketpair(AF_UNIX, SOCK_SEQPACKET | SOCK_NONBLOCK, 0, in) < 0 ||
        socketpair(AF_UNIX, SOCK_SEQPACKET | SOCK_NONBLOCK, 0, out) < 0) {
        way_close(&way);
        return 1;
    }
    static const uint8_t frame[FRAME_LEN];
    for (int i = 0; i < FRAMES; i++) {
        send(in[1], frame, FRAME_LEN, 0);
    }
    way.from = in[0];
    way.to = out[1];
    struct pollfd watched[] = { { timer, POLLIN, 0 }, { way.from, POLLIN, 0 } };
    uint64_t begin = now_ns(), sleeps = 0;
    for (;;) {
        way_read(&way);
        uint64_t due = way_write(&way);
        qtree_row row;
        qtree_totals(&way.device, &row);
        if (way.read == FRAMES && row.queued.packets == 0) {
            break;
        }
        sleep_until(watched, 2, due);
        sleeps++;
    }
    printf("%" PRIu64 " frames in %" PRIu64 " ms, asleep %" PRIu64 " times", way.written, (now_ns() - begin) / 1000000, sleeps);
    buffers_tell_lost(&way.buffers);
    puts("");
    way_tell_lateness(&way);
    way_close(&way);
    return 0;
}
