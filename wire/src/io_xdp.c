/* AF_XDP: the slots of both directions are one area that the kernel knows, so that a frame is not copied in userspace. Each direction fills
 * and reads the rings of all queues of its first card, and sends by those of the first queue of its second, so that the threads share none.
 */
#include "card.h"
#include "wire.h"
#include "xdp_program.h"

#include <errno.h>
#include <linux/if_xdp.h>
#include <stdio.h>
#include <stdlib.h>
#include <string.h>
#include <sys/mman.h>
#include <sys/socket.h>
#include <time.h>
#include <xdp/xsk.h>

enum { TRIES = 8, PAUSE = 50000 };

struct queue {
    struct xsk_socket *socket;
    struct xsk_ring_cons received, completed;
    struct xsk_ring_prod sent, fill;
};

struct end { /* a card */
    struct queue *queues;
    size_t count;
    struct xdp_program program;
};

static struct {
    struct xsk_umem *umem;
    uint8_t *area;
    size_t half, slot; /* slots of each direction, and bytes of a slot */
    uint32_t ring;     /* places of each ring */
    struct end ends[2];
    struct xsk_ring_prod fill; /* of the umem itself, until the first socket takes them over */
    struct xsk_ring_cons completed;
} shared;

struct state {
    struct end *from, *to;
    uint32_t base; /* the first slot of the direction in the area */
    size_t turn;   /* the queue that is read first */
};

static bool failed(const char *what, int error) {
    fprintf(stderr, "qtree-wire: %s: %s\n", what, strerror(error < 0 ? -error : error));
    return false;
}

static bool open_area(struct direction *both) {
    shared.half = both[0].pool.size;
    shared.slot = both[0].pool.slot;
    shared.ring = both[0].ring;
    size_t size = shared.half * 2 * shared.slot;
    struct xsk_umem_config config = { .fill_size = shared.ring, .comp_size = shared.ring, .frame_size = (uint32_t)shared.slot };
    shared.area = mmap(NULL, size, PROT_READ | PROT_WRITE, MAP_PRIVATE | MAP_ANONYMOUS, -1, 0);
    if (shared.area == MAP_FAILED) {
        return failed("the frames' memory", errno);
    }
    int error = xsk_umem__create(&shared.umem, shared.area, size, &shared.fill, &shared.completed, &config);
    return error == 0 || failed("AF_XDP's memory", error);
}

static bool open_queue(struct end *end, const char *card, uint32_t number) {
    struct queue *queue = &end->queues[number];
    struct xsk_socket_config config = {
        .rx_size = shared.ring,
        .tx_size = shared.ring,
        .libxdp_flags = XSK_LIBXDP_FLAGS__INHIBIT_PROG_LOAD,
        .bind_flags = XDP_COPY,
    };
    int error = xsk_socket__create_shared(&queue->socket, card, number, shared.umem, &queue->received, &queue->sent, &queue->fill,
                                          &queue->completed, &config);
    if (error != 0) {
        queue->socket = NULL;
        return failed(card, error);
    }
    return xdp_program_add(&end->program, number, xsk_socket__fd(queue->socket)) || failed(card, errno);
}

static bool open_end(struct end *end, const char *card, const char *other) {
    struct card found;
    bool is_open = card_read(&found, card) && xdp_program_attach(&end->program, card, other);
    end->count = found.queues < MOST_INPUTS ? found.queues : MOST_INPUTS;
    end->queues = calloc(end->count, sizeof *end->queues);
    for (size_t i = 0; i < end->count && is_open; i++) {
        is_open = open_queue(end, card, (uint32_t)i);
    }
    return is_open;
}

/* Lends slots to the card for frames that come. */
static void fill(struct direction *way, struct queue *queue) {
    const struct state *state = way->state;
    while (pool_left(&way->pool) >= BATCH && xsk_prod_nb_free(&queue->fill, BATCH) >= BATCH) {
        uint32_t at = 0, buf = 0;
        xsk_ring_prod__reserve(&queue->fill, BATCH, &at);
        for (uint32_t i = 0; i < BATCH; i++) {
            pool_take(&way->pool, &buf);
            *xsk_ring_prod__fill_addr(&queue->fill, at + i) = (uint64_t)(buf + state->base) * shared.slot;
        }
        xsk_ring_prod__submit(&queue->fill, BATCH);
    }
}

static bool open_way(struct direction *way, int index) {
    struct state *state = way->state = calloc(1, sizeof *state);
    size_t size = way->pool.size;
    pool_close(&way->pool, true);
    if (state == NULL || !pool_open(&way->pool, size, shared.slot, shared.area + (size_t)index * shared.half * shared.slot)) {
        return failed("the frames' memory", ENOMEM);
    }
    state->from = &shared.ends[index];
    state->to = &shared.ends[1 - index];
    state->base = (uint32_t)((size_t)index * shared.half);
    way->input_count = state->from->count;
    for (size_t i = 0; i < way->input_count; i++) {
        way->inputs[i] = xsk_socket__fd(state->from->queues[i].socket);
        fill(way, &state->from->queues[i]);
    }
    way->output = xsk_socket__fd(state->to->queues[0].socket);
    return true;
}

static bool xdp_open(struct direction *both) {
    return open_area(both) && open_end(&shared.ends[0], both[0].from, both[0].to) && open_end(&shared.ends[1], both[1].from, both[1].to) &&
           open_way(&both[0], 0) && open_way(&both[1], 1);
}

static bool has_unsent(const struct queue *queue) {
    return __atomic_load_n(queue->sent.consumer, __ATOMIC_ACQUIRE) != __atomic_load_n(queue->sent.producer, __ATOMIC_RELAXED);
}

/* Takes back the slots of frames that are sent. */
static void complete(struct direction *way, struct queue *queue) {
    const struct state *state = way->state;
    uint32_t at = 0, count = xsk_ring_cons__peek(&queue->completed, shared.ring, &at);
    for (uint32_t i = 0; i < count; i++) {
        pool_give(&way->pool, (uint32_t)(*xsk_ring_cons__comp_addr(&queue->completed, at + i) / shared.slot) - state->base);
    }
    xsk_ring_cons__release(&queue->completed, count);
}

/* The kernel takes some frames at each call. */
static void kick(struct direction *way, struct queue *queue) {
    for (int tries = 0; has_unsent(queue) && tries < TRIES; tries++) {
        if (sendto(way->output, NULL, 0, MSG_DONTWAIT, NULL, 0) < 0 && errno != EAGAIN && errno != EBUSY && errno != ENOBUFS) {
            break;
        }
        complete(way, queue);
    }
    complete(way, queue);
}

static int receive_from(struct direction *way, struct queue *queue) {
    const struct state *state = way->state;
    uint32_t at = 0, count = xsk_ring_cons__peek(&queue->received, BATCH, &at);
    uint64_t now = count > 0 ? clock_now() : 0;
    for (uint32_t i = 0; i < count; i++) {
        const struct xdp_desc *found = xsk_ring_cons__rx_desc(&queue->received, at + i);
        uint32_t buf = (uint32_t)(found->addr / shared.slot) - state->base;
        way->pool.frames[buf].at = (uint32_t)(found->addr % shared.slot);
        way->pool.frames[buf].len = found->len;
        direction_take(way, buf, now);
    }
    xsk_ring_cons__release(&queue->received, count);
    fill(way, queue);
    return (int)count;
}

static int xdp_receive(struct direction *way) {
    struct state *state = way->state;
    struct queue *out = &state->to->queues[0];
    int count = 0;
    complete(way, out);
    for (size_t i = 0; i < state->from->count; i++) {
        count += receive_from(way, &state->from->queues[(state->turn + i) % state->from->count]);
    }
    state->turn++;
    if (has_unsent(out)) { /* the kernel did not take all, and no poll says when it will */
        kick(way, out);
        if (has_unsent(out) && count == 0) {
            nanosleep(&(struct timespec){ 0, PAUSE }, NULL);
            return 1;
        }
    }
    return count;
}

static size_t xdp_room(struct direction *way) {
    struct queue *out = &((struct state *)way->state)->to->queues[0];
    uint32_t room = xsk_prod_nb_free(&out->sent, BATCH);
    if (room == 0) {
        kick(way, out);
        room = xsk_prod_nb_free(&out->sent, BATCH);
    }
    return room < BATCH ? room : BATCH;
}

static void xdp_send(struct direction *way, const uint32_t *bufs, size_t count) {
    const struct state *state = way->state;
    struct queue *out = &state->to->queues[0];
    uint32_t at = 0;
    xsk_ring_prod__reserve(&out->sent, (uint32_t)count, &at);
    for (uint32_t i = 0; i < count; i++) {
        const struct frame *frame = &way->pool.frames[bufs[i]];
        struct xdp_desc *desc = xsk_ring_prod__tx_desc(&out->sent, at + i);
        *desc = (struct xdp_desc){ .addr = (uint64_t)(bufs[i] + state->base) * shared.slot + frame->at, .len = frame->len };
        count_up(&way->counts.written, 1);
        count_up(&way->counts.written_bytes, frame->len);
    }
    xsk_ring_prod__submit(&out->sent, (uint32_t)count);
    kick(way, out);
}

/* Frames that found no slot or no place in a ring. */
static uint64_t xdp_dropped(struct direction *way) {
    const struct state *state = way->state;
    uint64_t sum = 0;
    for (size_t i = 0; i < state->from->count; i++) {
        struct xdp_statistics found = { 0 };
        socklen_t len = sizeof found;
        if (getsockopt(way->inputs[i], SOL_XDP, XDP_STATISTICS, &found, &len) == 0) {
            sum += found.rx_dropped + found.rx_ring_full;
        }
    }
    return sum;
}

static void xdp_close(struct direction *both, bool keeps_passing) {
    for (int i = 0; i < 2; i++) {
        struct end *end = &shared.ends[i];
        xdp_program_detach(&end->program, keeps_passing);
        for (size_t number = 0; end->queues != NULL && number < end->count; number++) {
            if (end->queues[number].socket != NULL) {
                xsk_socket__delete(end->queues[number].socket);
            }
        }
        free(end->queues);
        free(both[i].state);
        pool_close(&both[i].pool, both[i].pool.area != shared.area + (size_t)i * shared.half * shared.slot);
    }
    if (shared.umem != NULL) {
        xsk_umem__delete(shared.umem);
        munmap(shared.area, shared.half * 2 * shared.slot);
    }
}

const struct io io_xdp = { "xdp", xdp_open, xdp_receive, xdp_send, xdp_room, xdp_dropped, xdp_close };
