/* Sends the packets of a device over links that set the pace: a socket that is full at times, and the ring of a network card, which has
 * a few slots and a limit of bytes in flight. docs/EMBEDDING.md shows parts of this program. */
#define _GNU_SOURCE
#include "check.h"
#include "qtree.h"

#include <errno.h>
#include <poll.h>
#include <pthread.h>
#include <string.h>
#include <sys/socket.h>
#include <time.h>
#include <unistd.h>

/* Of each burst the fq_codel keeps as many packets as its limit. */
enum { BURSTS = 30, BURST = 50, LIMIT = 30, FLOWS = 5, LEN = 1000, SLOTS = 8, MADE = BURSTS * BURST };

/* A link of 20 Mbit/s in simulated time takes a step for each packet. A flow brings two packets a step, and another one every 25 steps. */
enum { STEPS = 1400, STEP_NS = 400000, DEEP = 1000 };

/* Beside the packets that are queued, one is held at most, one arrives, and the link has one or as many as a ring has slots. */
enum { BUFFERS = DEEP + 1 + 1 + SLOTS };

struct frame {
    uint16_t len;
    uint8_t bytes[LEN];
};

static struct frame frames[BUFFERS]; /* a packet's buf is the index of its frame, whose first bytes are the packet's number */
static uint32_t free_bufs[BUFFERS];
static size_t free_count;
static uint32_t polled[MADE], received[MADE]; /* the packets' numbers, in order */
static size_t made, lost, polled_count, received_count;

static void release(uint32_t buf) { free_bufs[free_count++] = buf; }

static uint32_t number_of(const uint8_t *bytes) {
    uint32_t number;
    memcpy(&number, bytes, sizeof number);
    return number;
}

static void reap(qtree_device *device) {
    for (qtree_loss loss; qtree_reap(device, &loss) == QTREE_DONE; lost++) {
        release(loss.packet.buf);
    }
}

/* A packet of a flow arrives; its time comes back with the poll. */
static void bring(qtree_device *device, uint32_t flow, uint64_t now) {
    CHECK(free_count > 0);
    uint32_t buf = free_bufs[--free_count], number = (uint32_t)made++;
    frames[buf].len = LEN;
    memcpy(frames[buf].bytes, &number, sizeof number);
    qtree_code code = qtree_arrive(device, &(qtree_packet){ .len = LEN, .buf = buf, .hash = flow, .port = flow, .number = now }, now);
    CHECK(code == QTREE_DONE || qtree_is_loss(code));
    reap(device);
}

static void bring_burst(qtree_device *device, uint64_t now) {
    for (uint32_t i = 0; i < BURST; i++) {
        bring(device, i * i % FLOWS, now);
    }
}

/* Polls where a packet is due, since a poll that gives nothing is an event too. */
static bool poll_due(qtree_device *device, uint64_t now, qtree_sent *sent) {
    uint64_t due;
    if (qtree_ready_at(device, &due) != QTREE_DONE || due > now || qtree_poll_buf(device, now, sent) != QTREE_DONE) {
        return false;
    }
    polled[polled_count++] = number_of(frames[sent->buf].bytes);
    return true;
}

/* A socket, and the packet that it refused. A device takes no packet back, so the link keeps this one, and sends it before any other. */
struct link {
    int fd;
    bool is_kept;
    qtree_sent kept;
    size_t refused, sleeps;
};

/* Sends until no packet is due or the socket is full, and returns whether it is full. */
static bool send_packets(struct link *link, qtree_device *device, uint64_t now) {
    while (link->is_kept || poll_due(device, now, &link->kept)) {
        const struct frame *frame = &frames[link->kept.buf];
        link->is_kept = send(link->fd, frame->bytes, frame->len, MSG_DONTWAIT) < 0 && errno == EAGAIN;
        if (link->is_kept) {
            link->refused++;
            return true;
        }
        release(link->kept.buf); /* the packet was sent, or failed by an error that another attempt would not mend */
    }
    return false;
}

/* Sleeps until the socket has room, and returns why it woke. A socket with room would end each sleep at once, so a program watches it
 * while a packet is kept, and only then. A program that reads frames from other descriptors watches these in the same call. */
static short sleep_until_room(struct link *link) {
    struct pollfd watched[] = { { link->fd, link->is_kept ? POLLOUT : 0, 0 } };
    poll(watched, 1, -1);
    link->sleeps++;
    return watched[0].revents;
}

/* The other end, which takes a packet every now and then, until the first end is closed. */
static void *receive_all(void *fd) {
    uint8_t bytes[LEN];
    while (recv(*(int *)fd, bytes, sizeof bytes, 0) == LEN) {
        received[received_count++] = number_of(bytes);
        nanosleep(&(struct timespec){ .tv_nsec = 20000 }, NULL);
    }
    return NULL;
}

/* The ring of a network card, and how many bytes of it may be in flight: polled, and not yet transmitted. */
struct card {
    qtree_sent slots[SLOTS];
    size_t first, used;
    uint64_t in_flight, limit;
};

/* Polls a packet for each slot that is free, as long as less than the limit is in flight. So no packet comes for which there is no room,
 * and what is in flight exceeds the limit by less than a packet. */
static void fill(struct card *card, qtree_device *device, uint64_t now) {
    while (card->used < SLOTS && card->in_flight < card->limit) {
        qtree_sent *slot = &card->slots[(card->first + card->used) % SLOTS];
        if (!poll_due(device, now, slot)) {
            return;
        }
        card->used++;
        card->in_flight += slot->len;
    }
}

/* The card has transmitted the packet of its first slot, whose bytes are no longer in flight. */
static void complete(struct card *card) {
    const qtree_sent *slot = &card->slots[card->first];
    received[received_count++] = number_of(frames[slot->buf].bytes);
    card->in_flight -= slot->len;
    card->first = (card->first + 1) % SLOTS;
    card->used--;
    release(slot->buf);
}

#define SHALLOW "tc qdisc add dev wan root handle 1: fq_codel limit 30" /* LIMIT */

static void open_device(qtree_device *device, const char *line) {
    qtree_fault fault;
    CHECK(qtree_open(device, &(qtree_settings){ .txqueuelen = 1000, .mtu = LEN }) == QTREE_DONE);
    CHECK(qtree_command(device, (const uint8_t *)line, strlen(line), 0, &fault) == QTREE_DONE);
    for (free_count = 0; free_count < BUFFERS;) {
        release((uint32_t)free_count);
    }
    made = lost = polled_count = received_count = 0;
}

/* Every packet was lost by the limit or went through the link, in the order of the polls. None is queued now, and each poll gave one. */
static void check_and_close(qtree_device *device) {
    qtree_row row;
    uint64_t events;
    size_t recorded;
    CHECK(qtree_totals(device, &row) == QTREE_DONE && qtree_events(device, &events, &recorded) == QTREE_DONE);
    CHECK(made == MADE && lost == BURSTS * (BURST - LIMIT) && received_count == MADE - lost && row.queued.packets == 0);
    CHECK(polled_count == received_count && memcmp(polled, received, received_count * sizeof received[0]) == 0);
    CHECK(events == 1 + made + received_count && free_count == BUFFERS);
    qtree_close(device);
}

static void over_a_socket(void) {
    qtree_device device = QTREE_CLOSED;
    pthread_t receiver;
    int ends[2], room = 4096;
    open_device(&device, SHALLOW);
    CHECK(socketpair(AF_UNIX, SOCK_SEQPACKET | SOCK_CLOEXEC, 0, ends) == 0);
    CHECK(setsockopt(ends[0], SOL_SOCKET, SO_SNDBUF, &room, sizeof room) == 0); /* what waits in the socket is not scheduled */
    CHECK(pthread_create(&receiver, NULL, receive_all, &ends[1]) == 0);
    struct link link = { .fd = ends[0] };
    for (uint64_t now = 0; now < BURSTS; now++) {
        bring_burst(&device, now);
        while (send_packets(&link, &device, now)) {
            CHECK(sleep_until_room(&link) == POLLOUT);
        }
    }
    close(ends[0]);
    pthread_join(receiver, NULL);
    close(ends[1]);
    CHECK(link.refused > 0 && link.refused == link.sleeps && !link.is_kept);
    printf("a socket: %zu packets in the order of the polls, %zu of them kept for a while\n", received_count, link.refused);
    check_and_close(&device);
}

/* After each burst the card transmits all that it has, and each packet makes room for others. */
static void over_a_card(uint64_t limit, size_t most) {
    qtree_device device = QTREE_CLOSED;
    struct card card = { .limit = limit };
    open_device(&device, SHALLOW);
    for (uint64_t now = 0; now < BURSTS; now++) {
        bring_burst(&device, now);
        for (fill(&card, &device, now); card.used > 0; fill(&card, &device, now)) {
            CHECK(card.used == (most < LIMIT - received_count % LIMIT ? most : LIMIT - received_count % LIMIT));
            CHECK(card.in_flight < limit + LEN && card.in_flight == card.used * LEN);
            complete(&card);
        }
    }
    printf("a card that has %zu packets at most: %zu packets in the order of the polls\n", most, received_count);
    check_and_close(&device);
}

/* The longest time that a packet of the sparse flow took, from its arrival until the card had transmitted it. */
static uint64_t longest_wait(const char *line) {
    qtree_device device = QTREE_CLOSED;
    struct card card = { .limit = 2500 };
    uint64_t longest = 0;
    open_device(&device, line);
    for (uint64_t step = 0, now = 0; step < STEPS; step++, now += STEP_NS) {
        if (card.used > 0) {
            const qtree_sent *slot = &card.slots[card.first];
            uint64_t wait = slot->port == 1 ? now - slot->number : 0;
            longest = wait > longest ? wait : longest;
            complete(&card);
        }
        bring(&device, 0, now);
        bring(&device, 0, now);
        if (step % 25 == 0) {
            bring(&device, 1, now);
        }
        fill(&card, &device, now);
        reap(&device); /* what CoDel dropped */
        CHECK(step < 2 || card.used > 1); /* the link always has a packet to send */
    }
    qtree_close(&device);
    return longest;
}

/* An fq_codel whose link sets the pace needs no tbf: a packet of the sparse flow waits for no more than the two that are in flight. */
static void beside_a_flow_too_fast(void) {
    uint64_t pfifo = longest_wait("tc qdisc add dev wan root handle 1: pfifo limit 1000");
    uint64_t fq_codel = longest_wait("tc qdisc add dev wan root handle 1: fq_codel limit 1000");
    printf("beside a flow of twice the rate a packet takes %.1f ms at most with a pfifo, and %.1f ms with an fq_codel\n", (double)pfifo / 1e6,
           (double)fq_codel / 1e6);
    CHECK(fq_codel <= 3 * STEP_NS && pfifo > 100 * fq_codel);
}

int main(void) {
    over_a_socket();
    over_a_card(UINT32_MAX, SLOTS);
    over_a_card(2500, 3);
    beside_a_flow_too_fast();
    return 0;
}
