/* What the library takes for its work, in figures that no contract names: allocations, their bytes, and sizes that a device reaches.
 *
 * The linker sends the library's allocations here (--wrap), and none of this program's. */
#include "check.h"
#include "qtree.h"

#include <limits.h>
#include <string.h>

static unsigned long allocations;
static size_t bytes;

static void count(size_t size) {
    allocations++;
    bytes += size;
}

void *__real_malloc(size_t size);
void *__real_realloc(void *at, size_t size);
void *__real_aligned_alloc(size_t alignment, size_t size);
int __real_posix_memalign(void **at, size_t alignment, size_t size);
void *__wrap_malloc(size_t size);
void *__wrap_realloc(void *at, size_t size);
void *__wrap_aligned_alloc(size_t alignment, size_t size);
int __wrap_posix_memalign(void **at, size_t alignment, size_t size);

void *__wrap_malloc(size_t size) {
    count(size);
    return __real_malloc(size);
}

void *__wrap_realloc(void *at, size_t size) {
    count(size);
    return __real_realloc(at, size);
}

void *__wrap_aligned_alloc(size_t alignment, size_t size) {
    count(size);
    return __real_aligned_alloc(alignment, size);
}

int __wrap_posix_memalign(void **at, size_t alignment, size_t size) {
    count(size);
    return __real_posix_memalign(at, alignment, size);
}

static void begin(void) {
    allocations = 0;
    bytes = 0;
}

static qtree_device device = QTREE_CLOSED;

static void open_with(uint32_t recorder) {
    qtree_settings settings = QTREE_DEFAULTS;
    settings.recorder = recorder;
    CHECK(qtree_open(&device, &settings) == QTREE_DONE);
}

static void run(const char *line) {
    if (qtree_run(&device, line, 0, NULL) != QTREE_DONE) {
        fprintf(stderr, "%s\n", line);
        abort();
    }
}

static void arrives(uint32_t buf, uint32_t hash) {
    const qtree_packet packet = { .len = 100, .buf = buf, .hash = hash };
    CHECK(qtree_arrive(&device, &packet, 0) == QTREE_DONE);
}

/* Fills the queue of a line and empties it again: all its packets are kept, and come back; the fifo's are in order. The memory doubles as
 * it grows, so that few allocations are made. */
static void fills(const char *line, uint32_t packets, bool in_order) {
    qtree_sent sent;
    open_with(0);
    run(line);
    begin();
    for (uint32_t i = 0; i < packets; i++) {
        arrives(i, i);
    }
    printf("figures: %u packets in %lu allocations of %zu bytes: %s\n", packets, allocations, bytes, line);
    CHECK(allocations <= 64 && bytes <= 1000 * (size_t)packets);
    uint64_t sum = 0;
    for (uint32_t i = 0; i < packets; i++) {
        CHECK(qtree_poll_buf(&device, 0, &sent) == QTREE_DONE && (!in_order || sent.buf == i));
        sum += sent.buf;
    }
    CHECK(sum == (uint64_t)packets * (packets - 1) / 2 && qtree_poll_buf(&device, 0, &sent) == QTREE_IDLE);
    qtree_close(&device);
}

/* Three times so many packets are queued, and lost with their queue, while the losses before wait: all are handed out in order. */
static void loses(const char *line, const char *removal, uint32_t packets) {
    qtree_loss loss;
    open_with(0);
    for (uint32_t i = 0; i < 3 * packets; i++) {
        if (i % packets == 0) {
            run(line);
        }
        arrives(i, 0);
        if (i % packets == packets - 1) {
            run(removal);
        }
    }
    for (uint32_t i = 0; i < 3 * packets; i++) {
        CHECK(qtree_reap(&device, &loss) == QTREE_DONE && loss.packet.buf == i);
    }
    CHECK(qtree_reap(&device, &loss) == QTREE_NOTHING);
    qtree_close(&device);
    printf("figures: %u losses wait at once\n", 3 * packets);
}

/* A queue with one packet takes little memory: there may be 256 of them. */
static void begins_small(const char *line, size_t most) {
    open_with(0);
    run(line);
    begin();
    arrives(0, 0);
    printf("figures: the first packet takes %zu bytes: %s\n", bytes, line);
    CHECK(bytes <= most);
    qtree_close(&device);
}

/* A recorder takes the memory of its events and no more, and so does the ring of the last events. */
static void keeps_events(void) {
    enum { EVENTS = 1000, MOST = 180 };
    begin();
    open_with(EVENTS);
    printf("figures: a recorder of %d events takes %zu bytes\n", EVENTS, bytes);
    CHECK(bytes <= EVENTS * MOST);
    begin();
    CHECK(qtree_keep_last(&device, EVENTS) == QTREE_DONE);
    printf("figures: the last %d events take %zu bytes\n", EVENTS, bytes);
    CHECK(bytes <= EVENTS * MOST);
    begin();
    CHECK(qtree_keep_last(&device, 1) == QTREE_DONE);
    CHECK(bytes <= 4 * MOST);
    qtree_close(&device);
}

/* As many of the last events may be kept as of the first, and no memory is touched before they come. */
static void keeps_a_million_events(void) {
    enum { EVENTS = 1000000 };
    qtree_sent sent;
    uint64_t noted;
    size_t kept;
    open_with(0);
    CHECK(qtree_keep_last(&device, EVENTS) == QTREE_DONE);
    for (uint64_t now = 0; now < 3; now++) {
        CHECK(qtree_poll_buf(&device, now, &sent) == QTREE_IDLE);
    }
    CHECK(qtree_last_noted(&device, &noted, &kept) == QTREE_DONE && noted == 3 && kept == 3);
    qtree_close(&device);
    printf("figures: the last %d events may be kept\n", EVENTS);
}

/* The recorder keeps the first million events, and the other log the last million: one that comes more is not recorded, or takes the place
 * of the first. */
static void notes_a_million_events(void) {
    enum { EVENTS = 1000000 };
    qtree_sent sent;
    uint64_t noted;
    size_t kept;
    for (int is_last = 0; is_last < 2; is_last++) {
        open_with(is_last ? 0 : EVENTS);
        CHECK(!is_last || qtree_keep_last(&device, EVENTS) == QTREE_DONE);
        for (uint64_t now = 0; now <= EVENTS; now++) {
            CHECK(qtree_poll_buf(&device, now, &sent) == QTREE_IDLE);
        }
        CHECK((is_last ? qtree_last_noted : qtree_events)(&device, &noted, &kept) == QTREE_DONE && noted == EVENTS + 1 && kept == EVENTS);
        qtree_close(&device);
    }
    printf("figures: the first %d events are recorded, and the last %d kept\n", EVENTS, EVENTS);
}

/* A ring takes the memory of its places, once. */
static void opens_a_ring(size_t places) {
    qtree_port port = QTREE_CLOSED;
    qtree_outlet outlet = QTREE_CLOSED;
    begin();
    CHECK(qtree_ring_open(&port, &outlet, 0, places) == QTREE_DONE);
    printf("figures: a ring of %zu places takes %zu bytes\n", places, bytes);
    CHECK(bytes <= places * sizeof(qtree_packet) + 4096);
    qtree_port_close(&port);
    qtree_outlet_close(&outlet);
}

/* An address with so many leading ones and a zero behind them: of the prefixes that end with that zero it has one. */
static uint32_t ones(uint32_t many) { return many == 0 ? 0 : UINT32_MAX << (32 - many); }

static const char *dotted(uint32_t address, char text[16]) {
    snprintf(text, 16, "%u.%u.%u.%u", address >> 24, address >> 16 & 255, address >> 8 & 255, address & 255);
    return text;
}

/* The i-th of 256 filters, each of a shape of its own: no two compare the same bits of both addresses. */
static void add_shape(uint32_t i) {
    char line[200], src[16], dst[16];
    snprintf(line, sizeof line, "tc filter add dev wan parent 1: protocol ip prio 1 flower src_ip %s/%u dst_ip %s/%u classid 1:%u",
             dotted(ones(i / 16), src), i / 16 + 1, dotted(ones(i % 16), dst), i % 16 + 1, i % 2 + 1);
    run(line);
}

/* A packet that the i-th of these filters takes, and no other, with the same addresses behind the prefixes as any other. */
static qtree_packet of_shape(uint32_t i) {
    return (qtree_packet){ .src_low = ones(i / 16), .dst_low = ones(i % 16), .len = 100, .family = 4 };
}

/* A prio takes 256 filters of 256 shapes, and each packet goes to the class of its own, however many filters there are. */
static void filters_of_256_shapes(void) {
    qtree_row row;
    open_with(0);
    run("tc qdisc add dev wan root handle 1: prio bands 3 priomap 2 2 2 2 2 2 2 2 2 2 2 2 2 2 2 2");
    for (uint32_t many = 0; many < 256; many++) {
        add_shape(many);
    }
    for (uint32_t i = 0; i < 256; i++) {
        qtree_packet packet = of_shape(i);
        CHECK(qtree_arrive(&device, &packet, 0) == QTREE_DONE);
        CHECK(qtree_stats(&device, QTREE_CLASS, 1, (uint16_t)(i % 2 + 1), &row) == QTREE_DONE && row.arrived.packets == i / 2 + 1);
    }
    puts("figures: 256 filters of 256 shapes find each packet's class");
    qtree_close(&device);
}

/* Ten filters or more that compare the same have an index: its memory is taken as they are added, also where they are of two shapes. */
static void many_filters_have_an_index(void) {
    char line[120];
    unsigned long least = ULONG_MAX;
    open_with(0);
    run("tc qdisc add dev wan root handle 1: prio");
    for (uint32_t many = 1; many <= 256; many++) {
        snprintf(line, sizeof line, "tc filter add dev wan parent 1: prio 1 flower %s %u classid 1:1", many % 2 == 0 ? "src_port" : "dst_port", many);
        begin();
        run(line);
        if (many > 9) {
            least = allocations < least ? allocations : least;
        }
    }
    printf("figures: each of 246 filters takes %lu allocations at least\n", least);
    CHECK(least >= 4);
    qtree_close(&device);
}

/* One call takes a thousand packets, gives as many, and hands out as many losses. */
static void calls_for_a_thousand(void) {
    enum { MANY = 1000 };
    static qtree_packet packets[MANY];
    static qtree_sent sent[MANY];
    static qtree_loss losses[MANY];
    static uint8_t codes[MANY];
    qtree_port port = QTREE_CLOSED;
    qtree_outlet outlet = QTREE_CLOSED;
    size_t count;
    for (uint32_t i = 0; i < MANY; i++) {
        packets[i] = (qtree_packet){ .len = 100, .buf = i };
    }
    open_with(0);
    CHECK(qtree_ring_open(&port, &outlet, 0, MANY) == QTREE_DONE);
    CHECK(qtree_offer_many(&port, packets, MANY, &count) == QTREE_DONE && count == MANY);
    CHECK(qtree_take_in(&device, &outlet, 0, MANY, &count) == QTREE_DONE && count == MANY);
    /* The queue is full then. */
    CHECK(qtree_arrive_many(&device, packets, MANY, codes, MANY, &count, 0) == QTREE_DONE && count == MANY);
    CHECK(qtree_reap_many(&device, losses, MANY, &count) == QTREE_DONE && count == MANY);
    CHECK(qtree_poll_bufs(&device, 0, sent, MANY, &count) == QTREE_DONE && count == MANY);
    for (uint32_t i = 0; i < MANY; i++) {
        CHECK(codes[i] == QTREE_LOST_OVER_LIMIT && losses[i].packet.buf == i && sent[i].buf == i && sent[i].number == i + 1);
    }
    CHECK(qtree_reap_many(&device, losses, MANY, &count) == QTREE_NOTHING && count == 0);
    qtree_port_close(&port);
    qtree_outlet_close(&outlet);
    qtree_close(&device);
    puts("figures: one call takes, gives and hands out a thousand packets");
}

/* A port has no last packet: one of 64 places takes millions, far more than it has places, and far more than a test on threads sends. */
static void a_port_takes_millions(void) {
    enum { MANY = 50, PACKETS = 5000000 };
    qtree_packet packets[MANY];
    qtree_sent sent[MANY];
    qtree_port port = QTREE_CLOSED;
    qtree_outlet outlet = QTREE_CLOSED;
    size_t count;
    for (size_t i = 0; i < MANY; i++) {
        packets[i] = (qtree_packet){ .len = 1500 };
    }
    open_with(0);
    CHECK(qtree_ring_open(&port, &outlet, 0, 64) == QTREE_DONE);
    for (uint32_t all = 0; all < PACKETS; all += MANY) {
        if (all % 4 == 0) {
            CHECK(qtree_offer_many(&port, packets, MANY, &count) == QTREE_DONE && count == MANY);
        } else {
            for (size_t i = 0; i < MANY; i++) {
                CHECK(qtree_offer(&port, &packets[i]) == QTREE_DONE);
            }
        }
        CHECK(qtree_take_in(&device, &outlet, 0, MANY, &count) == QTREE_DONE && count == MANY);
        CHECK(qtree_poll_bufs(&device, 0, sent, MANY, &count) == QTREE_DONE && count == MANY && sent[MANY - 1].number == all + MANY);
    }
    qtree_port_close(&port);
    qtree_outlet_close(&outlet);
    qtree_close(&device);
    printf("figures: a port of 64 places takes %d packets\n", PACKETS);
}

/* An fq_codel has any number of flows: powers of two, and one more and one less. */
static void flows_of_all_sizes(void) {
    char line[100];
    open_with(0);
    for (uint32_t power = 1; power <= 65536; power *= 2) {
        for (uint32_t flows = power - 1; flows <= power + 1; flows++) {
            if (flows >= 1 && flows <= 65536) {
                snprintf(line, sizeof line, "tc qdisc add dev wan root fq_codel flows %u", flows);
                run(line);
                run("tc qdisc del dev wan root");
            }
        }
    }
    qtree_close(&device);
    puts("figures: an fq_codel has as many flows as a power of two, and one more and one less");
}

int main(void) {
    setvbuf(stdout, NULL, _IOLBF, 0);
    fills("tc qdisc add dev wan root pfifo limit 3000000", 2200000, true);
    fills("tc qdisc add dev wan root fq_codel limit 3000000", 2200000, false);
    fills("tc qdisc add dev wan root bfifo limit 300000000", 2200000, true);
    loses("tc qdisc add dev wan root pfifo limit 1000000", "tc qdisc del dev wan root", 700000);
    begins_small("tc qdisc add dev wan root pfifo", 800);
    begins_small("tc qdisc add dev wan root fq_codel", 800);
    keeps_events();
    keeps_a_million_events();
    notes_a_million_events();
    opens_a_ring(1000);
    for (size_t places = 1; places <= 65536; places *= 2) {
        opens_a_ring(places);
    }
    filters_of_256_shapes();
    many_filters_have_an_index();
    calls_for_a_thousand();
    a_port_takes_millions();
    flows_of_all_sizes();
    return 0;
}
