/* A thread with a device of its own, which makes packets, sends them and accounts for them. */
#ifndef WORKER_H
#define WORKER_H

#include "mailbox.h"

enum { BURST = 32, BUFFERS_MOST = 1 << 20, WORKERS_MOST = 64 };

/* What became of the packets, as the worker itself counted. */
struct account {
    uint64_t made, sent, lost[QTREE_LOST_MOST + 1];
    uint64_t processor_ns;
};

struct worker {
    _Alignas(APART) qtree_device device;
    uint32_t *free; /* buffers that no packet has; a packet's buf is the index of its buffer */
    size_t free_count, buffers;
    uint32_t next_flow;
    struct account account;
    struct mailbox mailbox;
    pthread_t thread;
};

/* What all workers see: when they begin, and when they stop. */
extern atomic_bool workers_stop;

/* Opens the device. QTREE_DONE, QTREE_MEMORY. */
qtree_code worker_open(struct worker *worker, uint32_t index);
void worker_close(struct worker *worker);

/* Gets buffers for a tree that can hold so many packets, and a burst more, BUFFERS_MOST at most; false, and all as it was, where an
 * allocation fails. A worker makes no packet for which it has no buffer. */
bool worker_reserve(struct worker *worker, uint64_t packets);

/* Starts its thread; false where there is none. */
bool worker_start(struct worker *worker);

uint64_t now_ns(void);

#endif
