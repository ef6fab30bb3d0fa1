/* What a packet costs from C, by an arrival and a poll: one at a time, 32 in a crossing, and 32 at a time through a ring.
 *
 *     bench [PACKETS [ROUNDS [WORD]]]     so many packets for each figure, by default 1,000,000, in 5 rounds, in the rows with this word in
 *                                         their names. A million spans an interval of CoDel: of more it would drop some in the drr of
 *                                         8 fq_codels, and the row would stop.
 *
 * Packets also arrive by their first bytes, one at a time, by qtree_arrive_frame and qtree_poll_buf, with the hash of the packet; 32 at a
 * time also leave by qtree_poll_bufs, and are placed in the ring by qtree_offer_many. Where the kernel's own code is linked
 * (bench_kernel.h), it takes its turn in each round, a packet at a time and 32, and each figure also says how many times the kernel's
 * time it takes: of each round the ratio to the same burst, and of the rounds the median. Two rows are for reading a header with a hash
 * and without. The last is for two threads at once, each with a device of its own, whose structs stand side by side or far apart: the
 * processor time of the slower thread for a packet, which is the same as long as no call writes to a struct.
 *
 * Packets are made before, 8192 of them in turn, and some are queued first. Trees, packets and times are those of the rows of the same
 * names that bench/run measures from Rattle. Figures are nanoseconds a packet: the least of the rounds, and the median. */
#define _POSIX_C_SOURCE 200809L
#include "bench_kernel.h"
#include "check.h"
#include "qtree.h"

#include <pthread.h>
#include <stdalign.h>
#include <string.h>
#include <time.h>

enum { BATCH = 32, MADE = 8192, CLASSES = 8, FIRST_PORT = 5000, HEAD = 28, MTU = 1514, PAGE = 4096 };

/* What a row sets up: the root's kind, the leaf in each class of a drr if there is one, and the packets. */
struct row {
    const char *name, *root, *leaf;
    uint32_t flows, queued, step;
    enum shape shape;
};

static const char FLOWS[] = "fq_codel limit 10240 flows 1024 noecn drop_batch 64";

static const struct row rows[] = {
    { "root pfifo, 1000 queued", "pfifo limit 200000", NULL, 1, 1000, 100, PFIFO },
    { "prio of 3 pfifos", "prio bands 3 priomap 1 2 2 2 1 2 0 0 1 1 1 1 1 1 1 1", NULL, 1, 1000, 100, PRIO },
    { "tbf that never waits", "tbf rate 34gbit burst 1gb limit 1gb", NULL, 1, 1000, 1000, TBF },
    { "drr of 8 pfifos", "drr", "pfifo limit 200000", 1, 1000, 100, DRR_OF_PFIFOS },
    { "drr of 8 fq_codels", "drr", FLOWS, 64, 1000, 100, DRR_OF_FQ_CODELS },
    { "fq_codel, 1024 flows, 0 queued", FLOWS, NULL, 1024, 0, 100, FQ_CODEL },
    { "fq_codel, 1024 flows, 10000 queued", FLOWS, NULL, 1024, 10000, 100, FQ_CODEL },
};

/* The packets, with their indexes as buf. */
static qtree_packet made[MADE];

/* Headers of UDP packets of the same flows, with the priority 0. */
static uint8_t heads[MADE][HEAD];

static double seconds_of(clockid_t clock) {
    struct timespec now;
    clock_gettime(clock, &now);
    return (double)now.tv_sec + (double)now.tv_nsec * 1e-9;
}

static double seconds(void) { return seconds_of(CLOCK_MONOTONIC); }

/* Marsaglia's xorshift: a number below this one, the same in every run. */
static uint32_t below(uint64_t *state, uint32_t end) {
    *state ^= *state << 13;
    *state ^= *state >> 7;
    *state ^= *state << 17;
    return (uint32_t)((*state >> 20) % end);
}

static void make_packets(const struct row *row) {
    uint64_t state = 0x9e3779b97f4a7c15;
    for (uint32_t i = 0; i < MADE; i++) {
        made[i] = (qtree_packet){ .len = 1000, .buf = i, .family = 4, .proto = 17, .sport = 1000 };
        made[i].src_low = 0x0a000001;
        made[i].dst_low = 0x0a000002;
        made[i].hash = i % row->flows;
        made[i].prio = (uint8_t)below(&state, 16);
        made[i].dport = (uint16_t)(FIRST_PORT + below(&state, CLASSES));
        const uint8_t head[HEAD] = { 0x45, 0, 3, 232, 0, 0, 0, 0, 64, 17, 0, 0, 10, 0, 0, 1, 10, 0, 0, 2, 1000 / 256, 1000 % 256 };
        memcpy(heads[i], head, sizeof head);
        heads[i][22] = (uint8_t)(made[i].dport >> 8);
        heads[i][23] = (uint8_t)made[i].dport;
    }
}

static void command(qtree_device *device, const char *line) {
    qtree_fault fault;
    CHECK(qtree_command(device, (const uint8_t *)line, strlen(line), 0, &fault) == QTREE_DONE);
}

static void open_with(qtree_device *device, const struct row *row) {
    char line[256];
    CHECK(qtree_open(device, &(qtree_settings){ .txqueuelen = 200000, .mtu = MTU }) == QTREE_DONE);
    snprintf(line, sizeof line, "tc qdisc add dev a root handle 1: %s", row->root);
    command(device, line);
    for (int class = 1; row->leaf != NULL && class <= CLASSES; class++) {
        snprintf(line, sizeof line, "tc class add dev a parent 1: classid 1:%d drr quantum %d", class, MTU);
        command(device, line);
        snprintf(line, sizeof line, "tc filter add dev a parent 1: prio %d protocol ip flower ip_proto udp dst_port %d classid 1:%d", class,
                 FIRST_PORT + class - 1, class);
        command(device, line);
        snprintf(line, sizeof line, "tc qdisc add dev a parent 1:%d handle 1%d: %s", class, class, row->leaf);
        command(device, line);
    }
    for (uint32_t i = 0; i < row->queued; i++) {
        CHECK(qtree_arrive(device, &made[i % MADE], 0) == QTREE_DONE);
    }
}

static double one_at_a_time(const struct row *row, qtree_device *device, uint32_t packets) {
    qtree_packet given;
    double begun = seconds();
    for (uint32_t i = 0; i < packets; i++) {
        uint64_t now = (uint64_t)i * row->step;
        CHECK(qtree_arrive(device, &made[(row->queued + i) % MADE], now) == QTREE_DONE);
        CHECK(qtree_poll(device, now, &given) == QTREE_DONE && given.len == 1000);
    }
    return (seconds() - begun) / packets;
}

static double from_bytes(const struct row *row, qtree_device *device, uint32_t packets) {
    qtree_sent sent;
    double begun = seconds();
    for (uint32_t i = 0; i < packets; i++) {
        uint64_t now = (uint64_t)i * row->step;
        uint32_t at = (row->queued + i) % MADE;
        CHECK(qtree_arrive_frame(device, heads[at], HEAD, 1000, at, made[at].hash, now) == QTREE_DONE);
        CHECK(qtree_poll_buf(device, now, &sent) == QTREE_DONE && sent.len == 1000);
    }
    return (seconds() - begun) / packets;
}

static double in_batches(const struct row *row, qtree_device *device, uint32_t packets) {
    qtree_packet given[BATCH];
    uint8_t codes[BATCH];
    size_t count;
    double begun = seconds();
    for (uint32_t at = 0; at + BATCH <= packets; at += BATCH) {
        uint64_t now = (uint64_t)at * row->step;
        const qtree_packet *sent = &made[at % MADE];
        CHECK(qtree_arrive_many(device, sent, BATCH, codes, BATCH, &count, now) == QTREE_DONE && count == BATCH);
        CHECK(qtree_poll_many(device, now, given, BATCH, &count) == QTREE_DONE && count == BATCH);
        CHECK(given[0].len == 1000);
    }
    return (seconds() - begun) / (packets / BATCH * BATCH);
}

static double by_bufs(const struct row *row, qtree_device *device, uint32_t packets) {
    qtree_sent given[BATCH];
    uint8_t codes[BATCH];
    size_t count;
    double begun = seconds();
    for (uint32_t at = 0; at + BATCH <= packets; at += BATCH) {
        uint64_t now = (uint64_t)at * row->step;
        const qtree_packet *sent = &made[at % MADE];
        CHECK(qtree_arrive_many(device, sent, BATCH, codes, BATCH, &count, now) == QTREE_DONE && count == BATCH);
        CHECK(qtree_poll_bufs(device, now, given, BATCH, &count) == QTREE_DONE && count == BATCH);
        CHECK(given[0].len == 1000);
    }
    return (seconds() - begun) / (packets / BATCH * BATCH);
}

/* Places the packets from this one on in the ring, in one call or in as many. */
static void place(qtree_port *port, uint32_t at, bool is_many) {
    size_t placed;
    if (is_many) {
        CHECK(qtree_offer_many(port, &made[at % MADE], BATCH, &placed) == QTREE_DONE && placed == BATCH);
        return;
    }
    for (uint32_t i = 0; i < BATCH; i++) {
        CHECK(qtree_offer(port, &made[(at + i) % MADE]) == QTREE_DONE);
    }
}

static double by_a_ring(const struct row *row, qtree_device *device, uint32_t packets, bool is_many) {
    qtree_port port = QTREE_CLOSED;
    qtree_outlet outlet = QTREE_CLOSED;
    qtree_packet given[BATCH];
    size_t count;
    CHECK(qtree_ring_open(&port, &outlet, 0, 256) == QTREE_DONE);
    double begun = seconds();
    for (uint32_t at = 0; at + BATCH <= packets; at += BATCH) {
        uint64_t now = (uint64_t)at * row->step;
        place(&port, at, is_many);
        CHECK(qtree_take_in(device, &outlet, now, BATCH, &count) == QTREE_DONE && count == BATCH);
        CHECK(qtree_poll_many(device, now, given, BATCH, &count) == QTREE_DONE && count == BATCH);
        CHECK(given[0].len == 1000);
    }
    double taken = seconds() - begun;
    qtree_port_close(&port);
    qtree_outlet_close(&outlet);
    return taken / (packets / BATCH * BATCH);
}

static double by_ring(const struct row *row, qtree_device *device, uint32_t packets) { return by_a_ring(row, device, packets, false); }

static double by_ring_many(const struct row *row, qtree_device *device, uint32_t packets) { return by_a_ring(row, device, packets, true); }

/* Every packet that arrived was sent or is queued, and in an fq_codel none was dropped. */
static double by_device(double (*play)(const struct row *, qtree_device *, uint32_t), const struct row *row, uint32_t packets) {
    qtree_device device = QTREE_CLOSED;
    open_with(&device, row);
    double cost = play(row, &device, packets);
    qtree_row totals;
    CHECK(qtree_totals(&device, &totals) == QTREE_DONE && totals.queued.packets == row->queued);
    CHECK(totals.arrived.packets == totals.sent.packets + row->queued);
    qtree_close(&device);
    return cost * 1e9;
}

/* The same packets through the kernel's own code, so many at a time. */
static double by_kernel(const struct row *row, uint32_t packets, uint32_t burst) {
    static uint32_t hashes[MADE];
    static uint8_t prios[MADE];
    static uint16_t ports[MADE];
    for (uint32_t i = 0; i < MADE; i++) {
        hashes[i] = made[i].hash;
        prios[i] = made[i].prio;
        ports[i] = made[i].dport;
    }
    struct load load = { hashes, prios, ports, MADE, (uint32_t)row->shape, 1024, 64, row->queued, 10240, false };
    void *opened = bench_kernel_open(&load);
    double begun = seconds();
    CHECK(bench_kernel_run(opened, row->step, packets, burst) != 0);
    double taken = seconds() - begun;
    bench_kernel_close(opened);
    return taken / (packets / burst * burst) * 1e9;
}

/* The ways to bring packets and to take them. One at a time, or by so many. */
static const struct way {
    const char *name;
    double (*play)(const struct row *, qtree_device *, uint32_t);
    uint32_t burst;
} ways[] = {
    { "the kernel's code, one at a time", NULL, 1 },
    { "the kernel's code, by 32", NULL, BATCH },
    { "one at a time", one_at_a_time, 1 },
    { "one at a time, from its bytes", from_bytes, 1 },
    { "by 32, poll_many", in_batches, BATCH },
    { "by 32, poll_bufs", by_bufs, BATCH },
    { "by 32 through a ring", by_ring, BATCH },
    { "by 32 through a ring, offer_many", by_ring_many, BATCH },
};
enum { WAYS = sizeof ways / sizeof ways[0], KERNEL_ONE = 0, KERNEL_MANY = 1, MOST_ROUNDS = 1000 };

static int ascending(const void *a, const void *b) {
    double x = *(const double *)a, y = *(const double *)b;
    return (x > y) - (x < y);
}

static double median(double *figures, uint32_t count) {
    qsort(figures, count, sizeof *figures, ascending);
    return figures[count / 2];
}

static bool is_here(const struct way *way) { return way->play != NULL || bench_kernel_open != NULL; }

/* The least and the median of a way's rounds, and the median of what each round is to the kernel's. */
static void print_way(const struct way *way, const double costs[], const double kernel[], uint32_t rounds) {
    static double sorted[MOST_ROUNDS], ratios[MOST_ROUNDS];
    memcpy(sorted, costs, rounds * sizeof *sorted);
    double middle = median(sorted, rounds);
    printf("    %-36s %7.1f ns %7.1f ns in the median", way->name, sorted[0], middle);
    if (way->play != NULL && bench_kernel_open != NULL) {
        for (uint32_t round = 0; round < rounds; round++) {
            ratios[round] = costs[round] / kernel[round];
        }
        printf(" %6.2f times the kernel's", median(ratios, rounds));
    }
    printf("\n");
}

/* All ways take turns in each round. */
static void print_row(const struct row *row, uint32_t packets, uint32_t rounds) {
    static double costs[WAYS][MOST_ROUNDS];
    make_packets(row);
    for (uint32_t round = 0; round < rounds; round++) {
        for (size_t i = 0; i < WAYS; i++) {
            if (is_here(&ways[i])) {
                costs[i][round] = ways[i].play == NULL ? by_kernel(row, packets, ways[i].burst) : by_device(ways[i].play, row, packets);
            }
        }
    }
    printf("%s\n", row->name);
    for (size_t i = 0; i < WAYS; i++) {
        if (is_here(&ways[i])) {
            print_way(&ways[i], costs[i], costs[ways[i].burst == 1 ? KERNEL_ONE : KERNEL_MANY], rounds);
        }
    }
    fflush(stdout);
}

/* The time to read a header, with a hash or without: the least of the rounds. */
static double read_heads(bool is_hashed, uint32_t packets, uint32_t rounds) {
    double best = 1e9;
    for (uint32_t round = 0; round < rounds; round++) {
        qtree_packet packet = { .len = 1000 };
        double begun = seconds();
        for (uint32_t i = 0; i < packets; i++) {
            if (is_hashed) {
                qtree_read_head(heads[i % MADE], HEAD, 0, &packet);
            } else {
                qtree_read_fields(heads[i % MADE], HEAD, &packet);
            }
            CHECK(packet.sport == 1000 && (packet.hash != 0) == is_hashed);
        }
        double cost = (seconds() - begun) / packets;
        best = cost < best ? cost : best;
    }
    return best * 1e9;
}

/* What one of two threads has: the place of its device, and what it measures there. */
struct side {
    qtree_device *device;
    pthread_barrier_t *start;
    uint32_t packets;
    double cost;
};

static void *play_side(void *of) {
    struct side *side = of;
    open_with(side->device, &rows[0]);
    pthread_barrier_wait(side->start);
    double begun = seconds_of(CLOCK_THREAD_CPUTIME_ID);
    one_at_a_time(&rows[0], side->device, side->packets);
    side->cost = (seconds_of(CLOCK_THREAD_CPUTIME_ID) - begun) / side->packets;
    qtree_close(side->device);
    return NULL;
}

/* The processor time of a packet of the slower of two threads, whose devices' structs are so many bytes apart. */
static double two_devices(size_t apart, uint32_t packets) {
    alignas(PAGE) static uint8_t memory[2 * PAGE];
    pthread_barrier_t start;
    pthread_t thread;
    memset(memory, 0, sizeof memory);
    CHECK(pthread_barrier_init(&start, NULL, 2) == 0);
    struct side here = { (qtree_device *)(void *)memory, &start, packets, 0 };
    struct side there = { (qtree_device *)(void *)(memory + apart), &start, packets, 0 };
    CHECK(pthread_create(&thread, NULL, play_side, &there) == 0);
    play_side(&here);
    CHECK(pthread_join(thread, NULL) == 0 && pthread_barrier_destroy(&start) == 0);
    return (here.cost > there.cost ? here.cost : there.cost) * 1e9;
}

/* Both in turn, the least of the rounds of each. */
static void print_two_devices(uint32_t packets, uint32_t rounds) {
    double beside = 1e9, apart = 1e9;
    make_packets(&rows[0]);
    for (uint32_t round = 0; round < rounds; round++) {
        double near = two_devices(sizeof(qtree_device), packets), far = two_devices(PAGE, packets);
        beside = near < beside ? near : beside;
        apart = far < apart ? far : apart;
    }
    printf("%-36s %7.1f ns %zu bytes apart %7.1f ns %d bytes apart %6.2f times\n", "two threads, their devices", beside, sizeof(qtree_device),
           apart, PAGE, beside / apart);
}

int main(int argc, char **argv) {
    uint32_t packets = argc > 1 ? (uint32_t)strtoul(argv[1], NULL, 10) : 1000000;
    uint32_t rounds = argc > 2 ? (uint32_t)strtoul(argv[2], NULL, 10) : 5;
    const char *word = argc > 3 ? argv[3] : "";
    CHECK(packets >= BATCH && rounds >= 1 && rounds <= MOST_ROUNDS);
    for (size_t i = 0; i < sizeof rows / sizeof rows[0]; i++) {
        if (strstr(rows[i].name, word) != NULL) {
            print_row(&rows[i], packets, rounds);
        }
    }
    if (*word != '\0') {
        return 0;
    }
    printf("%-40s %7.1f ns\n", "qtree_read_head", read_heads(true, packets, rounds));
    printf("%-40s %7.1f ns\n", "qtree_read_fields", read_heads(false, packets, rounds));
    print_two_devices(packets, rounds);
    return 0;
}
