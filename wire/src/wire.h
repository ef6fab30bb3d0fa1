/* What the parts of qtree-wire share: a direction, in which frames that one card receives leave by the other, shaped by a device. */
#ifndef WIRE_H
#define WIRE_H

#include "lateness.h"
#include "metrics.h"
#include "qtree.h"

#include <linux/virtio_net.h>
#include <net/if.h>
#include <semaphore.h>
#include <stdatomic.h>
#include <stdbool.h>
#include <stddef.h>
#include <stdint.h>

enum {
    BATCH = 64,       /* frames that are read, polled or sent at once */
    HEADROOM = 4,     /* before a frame that is read, for a VLAN tag that the kernel took out */
    HEAD = 128,       /* bytes from the IP header on that are shown to the device */
    SHORTEST = 60,    /* a frame on Ethernet without its checksum */
    MOST_INPUTS = 64, /* queues of a card that are read */
    CE = 3            /* the ECN codepoint that is a mark */
};

/* What is kept of a frame beside its bytes. A packet's buf is the index of both. */
struct frame {
    uint32_t at; /* where the frame begins in its slot */
    uint32_t len;
    uint32_t ip;                /* where its IP header begins in the frame; 0 if none was found */
    struct virtio_net_hdr open; /* what the kernel left open, as a checksum that the card would fill in */
};

/* The slots of a direction. Those from fresh on were never used, and take no memory yet. */
struct pool {
    uint8_t *area;
    struct frame *frames;
    uint32_t *unused;
    size_t unused_count, fresh, size, slot;
};

/* What is lost beside the losses of the tree. */
enum { LOST_SOCKET, LOST_TOO_LONG, LOST_NO_BUFFER, LOST_REFUSED, LOST_UNSENT, LOST_WAYS };
extern const char *const lost_names[LOST_WAYS];

struct counts {
    _Atomic uint64_t read, read_bytes, written, written_bytes, not_ip, turns, sleeps, lost[LOST_WAYS];
};

struct direction;

/* How frames come and go. */
struct io {
    const char *name;
    bool (*open)(struct direction *both);
    int (*receive)(struct direction *way);                                   /* hands up to a batch to direction_take; how many */
    void (*send)(struct direction *way, const uint32_t *bufs, size_t count); /* no more than there is room for */
    size_t (*room)(struct direction *way);                                   /* how many frames may be sent now, up to a batch */
    uint64_t (*dropped)(struct direction *way);                              /* frames that the kernel lost before they were read */
    void (*close)(struct direction *both, bool keeps_passing);
};
extern const struct io io_packet;
#ifdef WITH_XDP
extern const struct io io_xdp;
#endif

/* What another thread asks a direction to do between two turns. */
struct request {
    void (*act)(struct direction *way, void *with);
    void *with;
    sem_t done;
};

struct direction {
    char from[IF_NAMESIZE], to[IF_NAMESIZE];
    const struct io *io;
    void *state; /* of the io */
    int inputs[MOST_INPUTS], output, bell;
    size_t input_count;
    bool is_blocked; /* the card took no more: wait until it can be written */
    qtree_device device;
    struct lateness lateness;
    struct losses losses;
    struct pool pool;
    uint32_t seed;
    uint32_t overhead;
    uint64_t nap;
    uint32_t ring;  /* places of each ring, where the io has rings */
    uint64_t needs; /* frames that the tree can hold */
    struct counts counts;
    _Atomic(struct request *) request;
    atomic_bool is_over;
};

/* The program: its directions, and what it was started with. */
struct wire {
    struct direction both[2]; /* the first from LEFT to RIGHT */
    const char *file, *name;
    uint16_t mtu;      /* the longest frame that a device takes */
    uint32_t queues;   /* of the card that has more */
    unsigned cards[2]; /* their indexes, by which the kernel knows them */
    bool is_real_time;
};

uint64_t clock_now(void);

static inline void count_up(_Atomic uint64_t *count, uint64_t by) {
    atomic_store_explicit(count, atomic_load_explicit(count, memory_order_relaxed) + by, memory_order_relaxed);
}

static inline uint64_t count_of(const _Atomic uint64_t *count) { return atomic_load_explicit(count, memory_order_relaxed); }

/* Slots are taken and given back by the thread of their direction. */
bool pool_open(struct pool *pool, size_t size, size_t slot, uint8_t *area);
void pool_close(struct pool *pool, bool has_own_area);
bool pool_take(struct pool *pool, uint32_t *buf);
void pool_give(struct pool *pool, uint32_t buf);
static inline size_t pool_left(const struct pool *pool) { return pool->unused_count + pool->size - pool->fresh; }
static inline uint8_t *slot_of(const struct pool *pool, uint32_t buf) { return pool->area + (size_t)buf * pool->slot; }

/* A frame was read into a slot: frames[buf] has at, len and open. */
void direction_take(struct direction *way, uint32_t buf, uint64_t now);
void direction_lose(struct direction *way, int cause, uint64_t count);
void direction_reap(struct direction *way);
void *direction_run(void *way);
/* Has the direction's thread do something between two turns, and waits until it has. */
void direction_ask(struct direction *way, void (*act)(struct direction *way, void *with), void *with);

#endif
