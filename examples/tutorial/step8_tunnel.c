/* Step 8: a tunnel. It opens two TUN devices, and sends what it reads from each of them to the other, by a device of its own.
 *
 *     step8_tunnel LEFT RIGHT FILE
 *
 * FILE has the lines of tc, for both directions. At an empty line on the standard input the tunnel reads FILE again, and at any other one it
 * shows the counters. At the end of the input it ends. */
#include "way.h"

#include <fcntl.h>
#include <linux/if.h>
#include <linux/if_tun.h>
#include <sys/ioctl.h>

/* Opens a TUN device, whose frames begin with their IP headers. */
static int open_tun(const char *name) {
    struct ifreq wanted = { .ifr_flags = IFF_TUN | IFF_NO_PI };
    strncpy(wanted.ifr_name, name, IFNAMSIZ - 1);
    int tun = open("/dev/net/tun", O_RDWR | O_NONBLOCK);
    if (tun < 0 || ioctl(tun, TUNSETIFF, &wanted) < 0) {
        perror(name);
        return -1;
    }
    return tun;
}

static bool open_way(struct way *way, int from, int to) {
    *way = (struct way){
        .from = from, .to = to, .settings = QTREE_DEFAULTS, .device = QTREE_CLOSED, .lateness = { .due = UINT64_MAX }
    };
    way->settings.mtu = MTU; /* a frame of a TUN device has no header of Ethernet */
    return from >= 0 && to >= 0 && qtree_open(&way->device, &way->settings) == QTREE_DONE;
}

/* Gets the buffers that the tree needs after a change; false if these cannot be had. */
static bool changed(struct way *way, uint64_t now) {
    lateness_ask(&way->lateness, &way->device, now);
    buffers_reap(&way->buffers, &way->device);
    return buffers_grow(&way->buffers, &way->device);
}

/* Reads the file once more. If it is no set-up, the tree stays as it is. */
static bool read_again(struct way *way, const char *path) {
    uint64_t now = now_ns();
    way_set_up(way, path, now);
    return changed(way, now);
}

/* Sets both directions up; false, with a line, if the file does not: frames would leave unshaped. */
static bool begin(struct way *ways, const char *path) {
    bool done = true;
    for (int i = 0; done && i < 2; i++) {
        uint64_t now = now_ns();
        done = way_set_up(&ways[i], path, now) && changed(&ways[i], now);
    }
    fflush(stdout);
    if (!done) {
        fprintf(stderr, "step8_tunnel: ended without sending a frame, since %s does not set it up\n", path);
    }
    return done;
}

/* Prints what became of the frames, and how late polls were. */
static void tell(const struct way *way, const char *from, const char *to) {
    qtree_row row;
    qtree_totals(&way->device, &row);
    printf("%s to %s: %" PRIu64 " frames: %" PRIu64 " written, %" PRIu64 " unwritten, %" PRIu64 " refused, %" PRIu64 " queued", from, to,
           way->read, way->written, way->unwritten, way->refused, row.queued.packets);
    buffers_tell_lost(&way->buffers);
    printf("; %" PRIu64 " marked\n", row.marked.packets);
    way_tell_lateness(way);
}

/* Carries out a line of the standard input; false at its end, or if the tunnel cannot go on. */
static bool take_line(struct way *ways, const char *path) {
    char line[80];
    if (fgets(line, sizeof line, stdin) == NULL) {
        return false;
    }
    for (int i = 0; i < 2; i++) {
        if (line[0] != '\n') {
            show(&ways[i].device);
        } else if (!read_again(&ways[i], path)) {
            return false;
        }
    }
    fflush(stdout);
    return true;
}

int main(int argc, char **argv) {
    if (argc != 4) {
        fputs("usage: step8_tunnel LEFT RIGHT FILE\n", stderr);
        return 2;
    }
    struct way ways[2];
    int left = open_tun(argv[1]), right = open_tun(argv[2]), timer = timerfd_create(CLOCK_MONOTONIC, 0);
    if (!open_way(&ways[0], left, right) || !open_way(&ways[1], right, left) || timer < 0 || !begin(ways, argv[3])) {
        return 1;
    }
    struct pollfd watched[] = { { timer, POLLIN, 0 }, { STDIN_FILENO, POLLIN, 0 }, { left, POLLIN, 0 }, { right, POLLIN, 0 } };
    do {
        uint64_t due = UINT64_MAX;
        for (int i = 0; i < 2; i++) {
            way_read(&ways[i]);
            uint64_t its = way_write(&ways[i]);
            due = its < due ? its : due;
        }
        sleep_until(watched, 4, due);
    } while (watched[1].revents == 0 || take_line(ways, argv[3]));
    tell(&ways[0], argv[1], argv[2]);
    tell(&ways[1], argv[2], argv[1]);
    way_close(&ways[0]);
    way_close(&ways[1]);
    return 0;
}
