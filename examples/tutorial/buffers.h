/* The buffers of a program, one for each packet that its device can hold. A packet's buf is the index of its buffer. */
#ifndef BUFFERS_H
#define BUFFERS_H

#include "qtree.h"

#include <inttypes.h>
#include <stdbool.h>
#include <stdio.h>
#include <stdlib.h>

enum { MTU = 1500, MOST_PACKETS = 65536 };

/* A packet that fills all bytes is longer than the mtu, and the device loses it. */
struct buffer {
    uint16_t len;
    uint8_t bytes[MTU + 1];
};

struct buffers {
    struct buffer *all;
    uint32_t *unused; /* a stack of the indexes that no packet has */
    size_t count, unused_count;
    uint64_t lost[QTREE_LOST_MOST + 1]; /* packets by cause */
};

/* Whether the device can hold so few packets that the program will have a buffer for each. */
static inline bool buffers_suffice(const qtree_device *device) {
    uint64_t most;
    return qtree_most_packets(device, &most) == QTREE_DONE && most < MOST_PACKETS;
}

/* Gets a buffer for each packet that the device can hold, and one for the packet that is being brought; false if there cannot be as many.
 * A program calls this after each command. If a command lowered a limit the buffers stay, since their packets may still be queued. */
static inline bool buffers_grow(struct buffers *buffers, const qtree_device *device) {
    uint64_t most;
    if (qtree_most_packets(device, &most) != QTREE_DONE || most >= UINT32_MAX) {
        return false;
    }
    if (most < buffers->count) {
        return true;
    }
    struct buffer *all = realloc(buffers->all, (most + 1) * sizeof *all);
    buffers->all = all == NULL ? buffers->all : all;
    uint32_t *unused = realloc(buffers->unused, (most + 1) * sizeof *unused);
    buffers->unused = unused == NULL ? buffers->unused : unused;
    while (all != NULL && unused != NULL && buffers->count <= most) {
        unused[buffers->unused_count++] = (uint32_t)buffers->count++;
    }
    return all != NULL && unused != NULL;
}

static inline uint32_t buffers_take(struct buffers *buffers) { return buffers->unused[--buffers->unused_count]; }

static inline void buffers_give(struct buffers *buffers, uint32_t buf) { buffers->unused[buffers->unused_count++] = buf; }

/* Reaps each loss, counts it, and gives its buffer back. */
static inline void buffers_reap(struct buffers *buffers, qtree_device *device) {
    qtree_loss loss;
    while (qtree_reap(device, &loss) == QTREE_DONE) {
        buffers->lost[loss.cause]++;
        buffers_give(buffers, loss.packet.buf);
    }
}

/* Prints how many packets were lost, by cause. */
static inline void buffers_tell_lost(const struct buffers *buffers) {
    for (uint32_t cause = 1; cause <= QTREE_LOST_MOST; cause++) {
        if (buffers->lost[cause] > 0) {
            printf(", %" PRIu64 " lost as %s", buffers->lost[cause], qtree_code_name(cause));
        }
    }
}

static inline void buffers_free(struct buffers *buffers) {
    free(buffers->all);
    free(buffers->unused);
}

#endif
