/* Senders on threads of their own pass packets through rings to one device, and every count has to add up.
 *
 *     threads [SENDERS [PACKETS]]     by default 64 senders with 1,000,000 packets each
 *
 * The main thread takes in, polls and reaps under a lock, while another thread reads the device's counters under it. This is done
 * for a tree of one pfifo, which keeps the packets of each sender in order, and for one that shares among two classes. */
#define _POSIX_C_SOURCE 200809L
#include "check.h"
#include "qtree.h"

#include <pthread.h>
#include <stdatomic.h>
#include <string.h>
#include <time.h>

enum { MOST_SENDERS = 1024, PLACES = 256, BATCH = 64, GIVEN = 32 };

struct sender {
    qtree_port port;
    qtree_outlet outlet; /* the main thread's */
    uint32_t index;
    uint32_t packets;
    uint64_t full;      /* offers that found no room */
    uint64_t last;      /* the number of its packet that came out last */
    qtree_count out;    /* its packets that came out, sent or lost */
    pthread_t thread;
};

static struct sender senders[MOST_SENDERS];
static size_t count;
static qtree_device device = QTREE_CLOSED;
static pthread_mutex_t lock = PTHREAD_MUTEX_INITIALIZER;
static atomic_bool is_over;
static bool in_order;

static uint16_t length(uint32_t sender, uint32_t packet) { return (uint16_t)(64 + (sender * 31 + packet * 7) % 1400); }

/* What the ports of so many packets placed. */
static qtree_count placed_by(const struct sender *sender) {
    qtree_count sum = { 0, 0 };
    for (uint32_t i = 0; i < sender->packets; i++) {
        sum.packets += 1;
        sum.bytes += length(sender->index, i);
    }
    return sum;
}

/* Gives the other threads the processor: a thread that finds nothing to do must not keep it from them. */
static void rest(void) {
    const struct timespec shortly = { 0, 50000 };
    nanosleep(&shortly, NULL);
}

static void *send_all(void *arg) {
    struct sender *sender = arg;
    for (uint32_t i = 0; i < sender->packets; i++) {
        qtree_packet packet = { .len = length(sender->index, i), .buf = i, .prio = (uint8_t)(i % 2), .hash = i % 16 };
        for (qtree_code code; (code = qtree_offer(&sender->port, &packet)) != QTREE_DONE; sender->full++) {
            CHECK(code == QTREE_FULL);
            rest();
        }
        CHECK(packet.port == 0 && packet.number == 0);
    }
    return NULL;
}

/* Reads the counters while the others work: they never fall, and add up each time. */
static void *watch(void *arg) {
    (void)arg;
    uint64_t arrived = 0;
    while (!atomic_load(&is_over)) {
        qtree_row row;
        pthread_mutex_lock(&lock);
        qtree_code code = qtree_totals(&device, &row);
        pthread_mutex_unlock(&lock);
        CHECK(code == QTREE_DONE && row.arrived.packets >= arrived);
        CHECK(row.arrived.packets == row.sent.packets + row.refused.packets + row.dropped.packets + row.queued.packets);
        arrived = row.arrived.packets;
        rest();
    }
    return NULL;
}

/* A packet came out: its sender has so many more, and its number is one that the sender gave this packet. */
static void came_out(const qtree_packet *packet) {
    CHECK(packet->port < count);
    struct sender *sender = &senders[packet->port];
    CHECK(packet->number == (uint64_t)packet->buf + 1 && packet->len == length(sender->index, packet->buf));
    sender->out.packets += 1;
    sender->out.bytes += packet->len;
}

/* One ring's turn: takes in, polls and reaps. */
static size_t serve(struct sender *sender, uint64_t now) {
    qtree_packet given[GIVEN];
    qtree_loss losses[GIVEN];
    size_t taken, sent, lost;
    pthread_mutex_lock(&lock);
    CHECK(qtree_take_in(&device, &sender->outlet, now, BATCH, &taken) == QTREE_DONE);
    qtree_code code = qtree_poll_many(&device, now, given, GIVEN, &sent);
    CHECK(code == QTREE_DONE || code == QTREE_IDLE);
    do {
        code = qtree_reap_many(&device, losses, GIVEN, &lost);
        for (size_t i = 0; i < lost; i++) {
            came_out(&losses[i].packet);
        }
    } while (code == QTREE_DONE);
    pthread_mutex_unlock(&lock);
    CHECK(code == QTREE_NOTHING);
    for (size_t i = 0; i < sent; i++) {
        came_out(&given[i]);
        struct sender *from = &senders[given[i].port];
        CHECK(!in_order || given[i].number > from->last);
        from->last = given[i].number;
    }
    return taken;
}

static void tc(const char *line) {
    qtree_fault fault;
    CHECK(qtree_command(&device, (const uint8_t *)line, strlen(line), 0, &fault) == QTREE_DONE);
}

static void start(uint32_t packets) {
    CHECK(qtree_open(&device, &(qtree_settings){ 1000, 0, 1514 }) == QTREE_DONE);
    for (uint32_t i = 0; i < count; i++) {
        senders[i] = (struct sender){ .index = i, .packets = packets };
        CHECK(qtree_ring_open(&senders[i].port, &senders[i].outlet, i, PLACES) == QTREE_DONE);
    }
}

/* Serves the rings until all packets are taken in, and returns the time of the last turn. */
static uint64_t serve_all(uint64_t packets) {
    uint64_t now = 0;
    for (uint64_t taken = 0; taken < packets; now++) {
        uint64_t before = taken;
        for (size_t i = 0; i < count; i++) {
            taken += serve(&senders[i], now * 1000);
        }
        if (taken == before) {
            rest();
        }
    }
    return now * 1000;
}

static bool is_same(qtree_count a, qtree_count b) { return a.packets == b.packets && a.bytes == b.bytes; }

/* What each thread placed is its port's share and its outlet's, and all of them are what the device counts as arrived. */
static void shares_add_up(void) {
    qtree_count sum = { 0, 0 }, share;
    qtree_row row;
    for (size_t i = 0; i < count; i++) {
        qtree_count placed = placed_by(&senders[i]);
        CHECK(qtree_port_share(&senders[i].port, &share) == QTREE_DONE && is_same(share, placed));
        CHECK(qtree_outlet_share(&senders[i].outlet, &share) == QTREE_DONE && is_same(share, placed));
        sum.packets += placed.packets;
        sum.bytes += placed.bytes;
    }
    CHECK(qtree_totals(&device, &row) == QTREE_DONE && is_same(row.arrived, sum));
    CHECK(row.arrived.packets == row.sent.packets + row.refused.packets + row.dropped.packets + row.queued.packets);
    CHECK(row.arrived.bytes == row.sent.bytes + row.refused.bytes + row.dropped.bytes + row.queued.bytes);
}

/* Gives what is still queued, until each sender has had back all that it placed. */
static void empty(uint64_t now) {
    qtree_row row;
    do {
        serve(&senders[0], now);
        CHECK(qtree_totals(&device, &row) == QTREE_DONE);
    } while (row.queued.packets > 0);
    for (size_t i = 0; i < count; i++) {
        CHECK(is_same(senders[i].out, placed_by(&senders[i])));
    }
    printf("threads: %llu arrived, %llu sent, %llu lost\n", (unsigned long long)row.arrived.packets,
           (unsigned long long)row.sent.packets, (unsigned long long)(row.refused.packets + row.dropped.packets));
}

static void close_all(void) {
    for (size_t i = 0; i < count; i++) {
        if (i % 2 == 0) {
            qtree_port_close(&senders[i].port);
            qtree_outlet_close(&senders[i].outlet);
        } else {
            qtree_outlet_close(&senders[i].outlet);
            qtree_port_close(&senders[i].port);
        }
    }
    qtree_close(&device);
}

static void play(const char *const *lines, uint32_t packets) {
    pthread_t watcher;
    start(packets);
    for (; *lines != NULL; lines++) {
        tc(*lines);
    }
    atomic_store(&is_over, false);
    CHECK(pthread_create(&watcher, NULL, watch, NULL) == 0);
    for (size_t i = 0; i < count; i++) {
        CHECK(pthread_create(&senders[i].thread, NULL, send_all, &senders[i]) == 0);
    }
    uint64_t now = serve_all((uint64_t)count * packets);
    for (size_t i = 0; i < count; i++) {
        CHECK(pthread_join(senders[i].thread, NULL) == 0);
    }
    atomic_store(&is_over, true);
    CHECK(pthread_join(watcher, NULL) == 0);
    shares_add_up();
    empty(now);
    close_all();
}

int main(int argc, char **argv) {
    static const char *const pfifo[] = { "tc qdisc add dev a root handle 1: pfifo limit 1000", NULL };
    static const char *const classes[] = {
        "tc qdisc add dev a root handle 1: prio bands 2 priomap 0 1 0 1 0 1 0 1 0 1 0 1 0 1 0 1",
        "tc qdisc add dev a parent 1:1 handle 2: fq_codel limit 200 flows 8",
        "tc qdisc add dev a parent 1:2 handle 3: bfifo limit 200000",
        NULL,
    };
    count = argc > 1 ? strtoul(argv[1], NULL, 10) : 64;
    uint32_t packets = argc > 2 ? (uint32_t)strtoul(argv[2], NULL, 10) : 1000000;
    CHECK(count >= 1 && count <= MOST_SENDERS);
    in_order = true;
    play(pfifo, packets);
    in_order = false;
    play(classes, packets);
    return 0;
}
