#include "worker.h"

#include <stdlib.h>
#include <time.h>

enum { FLOWS = 1024, CLASSES = 4, FIRST_PORT = 5000, LEN = 1000 };

atomic_bool workers_stop;

static uint64_t clock_ns(clockid_t clock) {
    struct timespec now;
    clock_gettime(clock, &now);
    return (uint64_t)now.tv_sec * 1000000000 + (uint64_t)now.tv_nsec;
}

uint64_t now_ns(void) { return clock_ns(CLOCK_MONOTONIC); }

qtree_code worker_open(struct worker *worker, uint32_t index) {
    *worker = (struct worker){ .device = QTREE_CLOSED, .next_flow = index * FLOWS };
    mailbox_open(&worker->mailbox);
    qtree_code code = qtree_open(&worker->device, &(qtree_settings){ .txqueuelen = 1000, .mtu = 1514 });
    uint64_t packets;
    if (code == QTREE_DONE && qtree_most_packets(&worker->device, &packets) == QTREE_DONE && !worker_reserve(worker, packets)) {
        return QTREE_MEMORY;
    }
    return code;
}

bool worker_reserve(struct worker *worker, uint64_t packets) {
    size_t wanted = packets < BUFFERS_MOST - BURST ? (size_t)packets + BURST : BUFFERS_MOST;
    if (wanted <= worker->buffers) {
        return true;
    }
    uint32_t *grown = realloc(worker->free, wanted * sizeof *grown);
    if (grown == NULL) {
        return false;
    }
    worker->free = grown;
    while (worker->buffers < wanted) {
        worker->free[worker->free_count++] = (uint32_t)worker->buffers++;
    }
    return true;
}

void worker_close(struct worker *worker) {
    qtree_close(&worker->device);
    mailbox_close(&worker->mailbox);
    free(worker->free);
}

/* As many packets as there are buffers, up to a burst. A program reads frames here, and their headers by qtree_read_head. */
static size_t make(struct worker *worker, qtree_packet *packets) {
    size_t count = 0;
    while (count < BURST && worker->free_count > 0) {
        uint32_t flow = worker->next_flow++ % FLOWS;
        packets[count++] = (qtree_packet){
            .buf = worker->free[--worker->free_count], .len = LEN, .family = 4, .proto = 17, .src_low = 0x0a000000 + flow,
            .dport = (uint16_t)(FIRST_PORT + flow % CLASSES), .hash = flow * 2654435761u,
        };
    }
    worker->account.made += count;
    return count;
}

/* The buffers of packets that did not arrive, since an allocation failed, are free again; those that are lost are reaped. */
static void arrive(struct worker *worker, const qtree_packet *packets, size_t count, uint64_t now) {
    uint8_t codes[BURST];
    size_t done = 0;
    qtree_arrive_many(&worker->device, packets, count, codes, BURST, &done, now);
    worker->account.made -= count - done;
    for (size_t i = done; i < count; i++) {
        worker->free[worker->free_count++] = packets[i].buf;
    }
}

/* A program transmits the packets here. It polls only where one is due, since each poll is an event. */
static void send(struct worker *worker, uint64_t now) {
    qtree_packet packets[BURST];
    size_t count;
    uint64_t due;
    if (qtree_ready_at(&worker->device, &due) != QTREE_DONE || due > now) {
        return;
    }
    qtree_poll_many(&worker->device, now, packets, BURST, &count);
    for (size_t i = 0; i < count; i++) {
        worker->free[worker->free_count++] = packets[i].buf;
    }
    worker->account.sent += count;
}

static void reap(struct worker *worker) {
    qtree_loss losses[BURST];
    size_t count;
    do {
        qtree_reap_many(&worker->device, losses, BURST, &count);
        for (size_t i = 0; i < count; i++) {
            worker->account.lost[losses[i].cause]++;
            worker->free[worker->free_count++] = losses[i].packet.buf;
        }
    } while (count == BURST);
}

/* Sends bursts, and checks the mailbox after each, until it is to stop. */
static void *run(void *its) {
    struct worker *worker = its;
    uint64_t begun = clock_ns(CLOCK_THREAD_CPUTIME_ID);
    while (!atomic_load_explicit(&workers_stop, memory_order_relaxed)) {
        qtree_packet packets[BURST];
        uint64_t now = now_ns();
        arrive(worker, packets, make(worker, packets), now);
        send(worker, now);
        reap(worker);
        mailbox_look(&worker->mailbox, &worker->device);
    }
    worker->account.processor_ns = clock_ns(CLOCK_THREAD_CPUTIME_ID) - begun;
    return NULL;
}

bool worker_start(struct worker *worker) { return pthread_create(&worker->thread, NULL, run, worker) == 0; }
