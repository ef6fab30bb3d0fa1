/* One direction of a link: frames that are read from a descriptor wait in a device, and are written to another when they are due. */
#ifndef WAY_H
#define WAY_H

#include "buffers.h"
#include "lateness.h"
#include "qtree.h"
#include "setup.h"

#include <inttypes.h>
#include <poll.h>
#include <stdio.h>
#include <sys/random.h>
#include <sys/timerfd.h>
#include <time.h>
#include <unistd.h>

enum { BATCH = 64, CE = 3, BILLION = 1000000000 };

struct way {
    int from, to; /* both nonblocking */
    qtree_settings settings;
    qtree_device device;
    struct buffers buffers;
    struct lateness lateness;
    uint64_t read, written, unwritten, refused; /* frames; unwritten: the descriptor did not take it; refused: the device did not */
};

static inline uint64_t now_ns(void) {
    struct timespec now;
    clock_gettime(CLOCK_MONOTONIC, &now);
    return (uint64_t)now.tv_sec * BILLION + (uint64_t)now.tv_nsec;
}

/* The seed of the hash, drawn once, so that nobody outside knows which ports share a flow. */
static inline uint32_t hash_seed(void) {
    static uint32_t seed;
    if (seed == 0 && getrandom(&seed, sizeof seed, 0) != sizeof seed) {
        seed = (uint32_t)now_ns();
    }
    return seed;
}

/* Whether the program will have enough buffers for the tree that the lines make, which it tries on a device of its own. If they make no
 * tree, set_up_text says why. */
static inline bool way_fits(const struct way *way, const char *path, const char *text, size_t len) {
    qtree_device trial = QTREE_CLOSED;
    qtree_report report;
    bool is_made = qtree_open(&trial, &way->settings) == QTREE_DONE &&
                   qtree_set_up(&trial, (const uint8_t *)text, len, 0, &report, NULL, 0) == QTREE_DONE;
    bool fits = !is_made || buffers_suffice(&trial);
    qtree_close(&trial);
    if (!fits) {
        printf("%s: refused, since the tree could hold %d packets or more (each byte of a limit in bytes may be a packet)\n", path,
               MOST_PACKETS);
    }
    return fits;
}

/* Makes the tree what the file says; false if it stays as it is, with the reason. */
static inline bool way_set_up(struct way *way, const char *path, uint64_t now) {
    static char text[FILE_SIZE];
    size_t len = read_lines(path, text);
    return len < FILE_SIZE && way_fits(way, path, text, len) && set_up_text(&way->device, path, text, len, now);
}

/* Reads the frames that have come in, and lets each arrive. One buffer is always unused, since the device cannot queue as many packets. */
static inline void way_read(struct way *way) {
    for (int i = 0; i < BATCH; i++) {
        uint32_t buf = buffers_take(&way->buffers);
        struct buffer *buffer = &way->buffers.all[buf];
        ssize_t len = read(way->from, buffer->bytes, sizeof buffer->bytes);
        if (len <= 0) {
            buffers_give(&way->buffers, buf);
            return;
        }
        way->read++;
        buffer->len = (uint16_t)len;
        qtree_packet packet = { .len = buffer->len, .buf = buf };
        qtree_read_head(buffer->bytes, buffer->len, hash_seed(), &packet);
        uint64_t now = now_ns();
        qtree_code code = qtree_arrive(&way->device, &packet, now);
        if (code != QTREE_DONE && !qtree_is_loss(code)) {
            buffers_give(&way->buffers, buf);
            way->refused++;
        }
        lateness_ask(&way->lateness, &way->device, now);
        buffers_reap(&way->buffers, &way->device);
    }
}

/* Writes the frame of a packet, with its mark, and gives its buffer back. */
static inline void way_send(struct way *way, const qtree_packet *packet) {
    struct buffer *buffer = &way->buffers.all[packet->buf];
    if (packet->ecn == CE) {
        qtree_mark_head(buffer->bytes, buffer->len);
    }
    bool is_written = write(way->to, buffer->bytes, buffer->len) == buffer->len;
    way->written += is_written;
    way->unwritten += !is_written;
    buffers_give(&way->buffers, packet->buf);
}

/* Writes the frames that are due, and returns when the next one is; UINT64_MAX if none waits. */
static inline uint64_t way_write(struct way *way) {
    uint64_t now = now_ns();
    lateness_count(&way->lateness, now);
    while (way->lateness.due <= now) {
        qtree_packet packet;
        if (qtree_poll(&way->device, now, &packet) == QTREE_DONE) {
            way_send(way, &packet);
        } else {
            way->lateness.due = UINT64_MAX; /* nothing is due any more, so the next line asks anew */
        }
        lateness_ask(&way->lateness, &way->device, now);
    }
    buffers_reap(&way->buffers, &way->device);
    return way->lateness.due;
}

/* Sleeps until one of the descriptors has something to read, or until this time; UINT64_MAX is no time. The first one is a timerfd. */
static inline void sleep_until(struct pollfd *watched, nfds_t count, uint64_t due) {
    uint64_t at = due == UINT64_MAX ? 0 : due; /* a timer that is set to 0 never fires */
    struct itimerspec timer = { .it_value = { .tv_sec = (time_t)(at / BILLION), .tv_nsec = (long)(at % BILLION) } };
    timerfd_settime(watched[0].fd, TFD_TIMER_ABSTIME, &timer, NULL);
    poll(watched, count, -1);
}

/* Prints how late polls were and, if the tree promises something, how late they may be for that. This is the same for all classes. */
static inline void way_tell_lateness(const struct way *way) {
    qtree_node_view node;
    uint64_t late = UINT64_MAX;
    for (size_t i = 0; late == UINT64_MAX && qtree_node(&way->device, i, &node) == QTREE_DONE; i++) {
        qtree_delay delay;
        if (qtree_worst(&way->device, node.place, node.parent_major, node.parent_minor, &delay) == QTREE_DONE) {
            late = delay.late;
        } else {
            qtree_lateness(&way->device, node.place, node.parent_major, node.parent_minor, &late);
        }
    }
    printf("polls were at most %" PRIu64 " us late", way->lateness.greatest / 1000);
    if (late != UINT64_MAX) {
        printf(", and may be %" PRIu64 " us late", late / 1000);
    }
    puts("");
}

static inline void way_close(struct way *way) {
    qtree_close(&way->device);
    buffers_free(&way->buffers);
}

#endif
