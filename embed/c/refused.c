/* Lets one allocation after another fail in a session of commands, arrivals, rings and shows, and in one of a tree in which each command
 * is made that may take memory. For each failure the call returns QTREE_MEMORY and leaves every counter and every shown text as it was,
 * and the same call then succeeds.
 *
 * The linker sends the library's allocations here (--wrap), and none of this program's. */
#include "check.h"
#include "qtree.h"

#include <string.h>

enum { TEXT = 4000, PLACES = 8, PACKETS = 40, FRAMES = 2, NODES = 12 };

/* The allocations that are still granted; none is counted below 0. */
static long granted = -1;
static unsigned long refusals;

static bool is_refused(void) {
    if (granted < 0) {
        return false;
    }
    refusals += granted == 0;
    return granted-- <= 0;
}

void *__real_malloc(size_t size);
void *__real_realloc(void *at, size_t size);
void *__real_aligned_alloc(size_t alignment, size_t size);
int __real_posix_memalign(void **at, size_t alignment, size_t size);
void *__wrap_malloc(size_t size);
void *__wrap_realloc(void *at, size_t size);
void *__wrap_aligned_alloc(size_t alignment, size_t size);
int __wrap_posix_memalign(void **at, size_t alignment, size_t size);

void *__wrap_malloc(size_t size) { return is_refused() ? NULL : __real_malloc(size); }

void *__wrap_realloc(void *at, size_t size) { return is_refused() ? NULL : __real_realloc(at, size); }

void *__wrap_aligned_alloc(size_t alignment, size_t size) {
    return is_refused() ? NULL : __real_aligned_alloc(alignment, size);
}

int __wrap_posix_memalign(void **at, size_t alignment, size_t size) {
    return is_refused() ? 12 : __real_posix_memalign(at, alignment, size);
}

static qtree_device device = QTREE_CLOSED;
static qtree_port port = QTREE_CLOSED;
static qtree_outlet outlet = QTREE_CLOSED;

/* All that can be read of a device and its ring. */
struct view {
    qtree_code codes[14];
    qtree_row device, root, classes[3];
    uint8_t text[4][TEXT];
    size_t needed[4];
    qtree_node_view nodes[NODES];
    uint64_t events, noted, ready;
    size_t recorded, kept;
    qtree_event last, last_recorded;
    qtree_count placed, taken;
};

static void look(struct view *view) {
    memset(view, 0, sizeof *view);
    qtree_code *code = view->codes;
    *code++ = qtree_totals(&device, &view->device);
    *code++ = qtree_stats(&device, QTREE_ROOT, 0, 0, &view->root);
    for (uint16_t i = 0; i < 3; i++) {
        *code++ = qtree_stats(&device, QTREE_CLASS, 1, (uint16_t)(i + 1), &view->classes[i]);
    }
    for (uint32_t what = 0; what < 4; what++) {
        qtree_code shown = qtree_show(&device, what, view->text[what], TEXT, &view->needed[what]);
        CHECK(shown == QTREE_DONE || shown == QTREE_IS_CLOSED);
    }
    for (size_t i = 0; i < NODES; i++) {
        qtree_node(&device, i, &view->nodes[i]);
    }
    *code++ = qtree_events(&device, &view->events, &view->recorded);
    *code++ = qtree_last_noted(&device, &view->noted, &view->kept);
    *code++ = qtree_last_event(&device, view->kept - 1, &view->last);
    *code++ = qtree_recorded(&device, view->recorded - 1, &view->last_recorded);
    *code++ = qtree_ready_at(&device, &view->ready);
    *code++ = qtree_port_share(&port, &view->placed);
    *code++ = qtree_outlet_share(&outlet, &view->taken);
}

static struct view before, after;

static bool is_same(void) {
    look(&after);
    return memcmp(&before, &after, sizeof before) == 0;
}

/* Makes a call while its first allocation fails, then its second, and so on, until none fails, and returns the result of the last call. */
static qtree_code insist(qtree_code (*call)(const void *), const void *given) {
    for (long grants = 0;; grants++) {
        look(&before);
        unsigned long had = refusals;
        granted = grants;
        qtree_code code = call(given);
        granted = -1;
        if (refusals == had) {
            return code;
        }
        CHECK(code == QTREE_MEMORY && is_same());
    }
}

static qtree_code opens(const void *given) { return qtree_open(&device, given); }

static qtree_code commands(const void *given) {
    qtree_fault fault = { 7, 7 };
    qtree_code code = qtree_command(&device, given, strlen(given), 1000, &fault);
    CHECK(fault.word == 7 && fault.number == 7);
    return code;
}

static qtree_code keeps_last(const void *given) { return qtree_keep_last(&device, *(const uint32_t *)given); }

static qtree_code arrives(const void *given) { return qtree_arrive(&device, given, 1000); }

static qtree_code frame_arrives(const void *given) { return qtree_arrive_frame_numbered(&device, given, 24, 900, 0, 5, 0, 1000); }

static qtree_code opens_ring(const void *given) {
    qtree_code code = qtree_ring_open(&port, &outlet, 3, *(const size_t *)given);
    CHECK(code == QTREE_DONE || (port.state == 0 && outlet.state == 0));
    return code;
}

static qtree_code takes_in_one(const void *given) {
    size_t taken = 7;
    qtree_code code = qtree_take_in(&device, &outlet, 1000, *(const size_t *)given, &taken);
    CHECK(taken == (code == QTREE_DONE ? 1 : 0));
    return code;
}

static qtree_code explain(const char *line, qtree_code answer) {
    uint8_t text[TEXT];
    size_t needed = 7;
    const qtree_fault fault = { 3, QTREE_FAULT_UNKNOWN_WORD };
    qtree_code code = qtree_explain((const uint8_t *)line, strlen(line), 1, answer, &fault, text, sizeof text, &needed);
    CHECK(code == QTREE_DONE || needed == 0);
    return code;
}

static qtree_code explains(const void *given) { return explain(given, QTREE_FAULTY); }

static qtree_code explains_other(const void *given) { return explain(given, QTREE_NO_COMMAND); }

static qtree_code shows(const void *given) {
    uint8_t text[TEXT];
    size_t needed = 7;
    memset(text, 0x5a, sizeof text);
    qtree_code code = qtree_show(&device, *(const uint32_t *)given, text, sizeof text, &needed);
    if (code == QTREE_MEMORY) {
        CHECK(needed == 0 && text[0] == 0x5a && memcmp(text, text + 1, sizeof text - 1) == 0);
    }
    return code;
}

/* A packet of UDP, TCP or another protocol, for which there are different filters. */
static qtree_packet packet(uint32_t number) {
    static const uint8_t protocols[] = { 17, 6, 1 };
    return (qtree_packet){
        .family = 4,
        .src_low = 0x0a000001,
        .proto = protocols[number % 3],
        .len = (uint16_t)(100 + number),
        .buf = number,
        .hash = number,
    };
}

static void play_lines(void) {
    static const char *const lines[] = {
        "tc qdisc add dev a root handle 1: drr",
        "tc class add dev a parent 1: classid 1:1 drr quantum 1500",
        "tc class add dev a parent 1: classid 1:2 drr quantum 600",
        "tc class add dev a parent 1: classid 1:3 drr quantum 600",
        "tc qdisc add dev a parent 1:1 handle 10: fq_codel limit 10 flows 4",
        "tc qdisc add dev a parent 1:2 handle 20: tbf rate 8mbit burst 3000 latency 50ms",
        "tc qdisc add dev a parent 20:1 handle 21: pfifo limit 5",
        "tc qdisc add dev a parent 1:3 handle 30: prio bands 3",
        "tc filter add dev a parent 1: prio 1 flower ip_proto udp classid 1:2",
        "tc filter add dev a parent 1: prio 2 flower ip_proto tcp classid 1:1",
        "tc filter add dev a parent 1: prio 3 flower src_ip 10.0.0.0/8 classid 1:3",
        "tc qdisc change dev a handle 10: fq_codel limit 12",
    };
    for (size_t i = 0; i < sizeof lines / sizeof lines[0]; i++) {
        CHECK(insist(commands, lines[i]) == QTREE_DONE);
    }
}

/* Packets arrive by calls and through the ring; of each, every allocation fails once. */
static void play_packets(void) {
    const uint8_t udp[24] = { 0x45, 0, 0, 24, 0, 0, 0, 0, 64, 17, 0, 0, 10, 0, 0, 1, 10, 0, 0, 2, 0, 1, 0, 2 };
    for (uint32_t i = 0; i < FRAMES; i++) {
        CHECK(insist(frame_arrives, udp) <= QTREE_LOST_OVER_LIMIT);
    }
    for (uint32_t i = 0; i < PACKETS; i++) {
        qtree_packet given = packet(i);
        CHECK(insist(arrives, &given) <= QTREE_LOST_OVER_LIMIT);
    }
    const size_t places = PLACES, most = 1;
    CHECK(insist(opens_ring, &places) == QTREE_DONE);
    for (uint32_t i = 0; i < PLACES; i++) {
        qtree_packet given = packet(PACKETS + i);
        granted = 0;
        size_t placed;
        CHECK(i % 2 == 0 ? qtree_offer(&port, &given) == QTREE_DONE : qtree_offer_many(&port, &given, 1, &placed) == QTREE_DONE);
        granted = -1;
    }
    for (uint32_t i = 0; i < PLACES; i++) {
        CHECK(insist(takes_in_one, &most) == QTREE_DONE);
    }
    look(&after);
    CHECK(after.taken.packets == PLACES && after.placed.packets == PLACES && after.taken.bytes == after.placed.bytes);
    CHECK(after.device.arrived.packets == PACKETS + FRAMES + PLACES);
}

/* Takes whole rings in while the first or second allocation of a call fails: the packets that had arrived by then have left the ring,
 * and the next call takes in the others. */
static void play_whole_rings(void) {
    for (long round = 0; round < 60; round++) {
        qtree_packet given = packet(2);
        while (qtree_offer(&port, &given) == QTREE_DONE) {
        }
        size_t taken = 99, rest = 0;
        unsigned long had = refusals;
        look(&before);
        granted = round % 2;
        qtree_code code = qtree_take_in(&device, &outlet, 1000, PLACES, &taken);
        granted = -1;
        look(&after);
        CHECK(code == (refusals == had ? QTREE_DONE : QTREE_MEMORY) && (taken == PLACES) == (code == QTREE_DONE));
        CHECK(after.taken.packets == before.taken.packets + taken && after.placed.packets == before.placed.packets);
        CHECK(after.device.arrived.packets == before.device.arrived.packets + taken);
        CHECK(qtree_take_in(&device, &outlet, 1000, PLACES, &rest) == QTREE_DONE && taken + rest == PLACES);
    }
}

/* The same of a new ring and a new device: of three packets two are asked for, and then all, while one allocation after another of the
 * first call fails. What was refused stays in the ring, and the second call takes it in. */
static void play_new_rings(void) {
    for (long grants = 0, is_refused_once = 1; is_refused_once; grants++) {
        qtree_device fed = QTREE_CLOSED;
        qtree_port sender = QTREE_CLOSED;
        qtree_outlet taker = QTREE_CLOSED;
        qtree_count placed, received;
        qtree_row row;
        size_t first = 7, second = 7;
        CHECK(qtree_open(&fed, &(qtree_settings){ 1000, 0, 1514 }) == QTREE_DONE);
        CHECK(qtree_ring_open(&sender, &taker, 3, 4) == QTREE_DONE);
        for (int i = 0; i < 3; i++) {
            CHECK(qtree_offer(&sender, &(qtree_packet){ .len = 100, .port = 7, .number = 5 }) == QTREE_DONE);
        }
        unsigned long had = refusals;
        granted = grants;
        qtree_code code = qtree_take_in(&fed, &taker, 0, 2, &first);
        granted = -1;
        is_refused_once = refusals > had;
        CHECK(is_refused_once ? code == QTREE_MEMORY && first < 2 : code == QTREE_DONE && first == 2);
        CHECK(grants > 0 || is_refused_once);
        CHECK(qtree_take_in(&fed, &taker, 0, 4, &second) == QTREE_DONE && first + second == 3);
        CHECK(qtree_port_share(&sender, &placed) == QTREE_DONE && placed.packets == 3 && placed.bytes == 300);
        CHECK(qtree_outlet_share(&taker, &received) == QTREE_DONE && received.packets == 3 && received.bytes == 300);
        CHECK(qtree_totals(&fed, &row) == QTREE_DONE && row.arrived.packets == 3 && row.arrived.bytes == 300);
        qtree_port_close(&sender);
        qtree_outlet_close(&taker);
        qtree_close(&fed);
    }
}

/* A poll, a reap and the calls that only read allocate nothing. */
static void play_without_memory(void) {
    qtree_packet given;
    qtree_loss loss;
    granted = 0;
    while (qtree_reap(&device, &loss) == QTREE_DONE) {
    }
    qtree_sent sent[4];
    size_t count;
    CHECK(qtree_poll_buf(&device, 1000000000, &sent[0]) == QTREE_DONE);
    CHECK(qtree_poll_bufs(&device, 1000000000, sent, 4, &count) == QTREE_DONE && count == 4);
    while (qtree_poll(&device, 1000000000, &given) == QTREE_DONE) {
    }
    granted = -1;
    look(&after);
    CHECK(after.device.queued.packets == 0 && after.last.kind == QTREE_POLLED);
}

/* Once a device has room for so many packets, they arrive by one call and go without an allocation. */
static void play_in_room(void) {
    enum { MANY = 300 };
    static qtree_packet sent[MANY];
    static uint8_t codes[MANY];
    qtree_device roomy = QTREE_CLOSED;
    size_t count = 7;
    CHECK(qtree_open(&roomy, &(qtree_settings){ 1000, 0, 1514 }) == QTREE_DONE);
    for (uint32_t i = 0; i < MANY; i++) {
        sent[i] = packet(i);
    }
    for (int round = 0; round < 2; round++) {
        granted = round == 0 ? -1 : 0;
        CHECK(qtree_arrive_many(&roomy, sent, MANY, codes, MANY, &count, 0) == QTREE_DONE && count == MANY);
        CHECK(qtree_poll_many(&roomy, 0, sent, MANY, &count) == QTREE_DONE && count == MANY);
        granted = -1;
    }
    qtree_close(&roomy);
}

/* A step of a session: a line of tc, the arrival of a packet of 1000 bytes, or else a poll. */
struct step {
    uint64_t now;
    const char *line;
    uint64_t arrives; /* the number of the packet */
    uint8_t prio;     /* its priority, its IP protocol and its hash */
    uint64_t gives;   /* the number of the packet that the poll returns */
    qtree_code code;  /* what the call returns once it has memory */
};

static qtree_code make(const struct step *step, uint64_t now) {
    const uint8_t prio = step->prio;
    qtree_packet made = { .family = 4, .number = step->arrives, .len = 1000, .proto = prio, .prio = prio, .hash = prio };
    if (step->line) {
        return qtree_run(&device, step->line, now, NULL);
    }
    if (step->arrives) {
        return qtree_arrive(&device, &made, now);
    }
    qtree_code code = qtree_poll(&device, now, &made);
    CHECK(code != QTREE_DONE || made.number == step->gives);
    return code;
}

static bool is_refusal(qtree_code code) { return code >= QTREE_REFUSED_NO_PARENT && code <= QTREE_REFUSED_NO_FILTER; }

/* Makes a step. If it is refused, so it is at a later time, which does not count: the next event would show it. */
static qtree_code makes(const void *given) {
    const struct step *step = given;
    qtree_code code = make(step, step->now);
    if (code == QTREE_MEMORY || is_refusal(code)) {
        granted = 0;
        CHECK(make(step, step->now + 1000) == code);
    }
    return code;
}

/* A tree in which each command is made that may take memory, with packets and losses between them. */
static const struct step tree[] = {
    { .now = 0, .line = "tc qdisc add dev a root handle 1: prio bands 2 priomap 0 1 1 1 1 1 1 1 1 1 1 1 1 1 1 1" },
    { .now = 1, .line = "tc qdisc add dev a parent 1:1 handle 2: drr" },
    { .now = 2, .line = "tc class add dev a parent 2: classid 2:1 drr quantum 1500" },
    { .now = 2, .line = "tc class add dev a parent 2: classid 2:1 drr quantum 1500", .code = QTREE_REFUSED_EXISTS },
    { .now = 3, .line = "tc filter add dev a parent 2: prio 1 flower ip_proto 0 classid 2:1" },
    { .now = 3, .line = "tc filter add dev a parent 2: prio 1 flower ip_proto 7 classid 2:1" },
    { .now = 4, .arrives = 1, .prio = 0 },
    { .now = 4, .arrives = 2, .prio = 1 },
    { .now = 5, .line = "tc qdisc add dev a parent 2:1 handle 3: fq_codel limit 2 flows 1" },
    { .now = 5, .arrives = 3, .prio = 0 },
    { .now = 5, .arrives = 4, .prio = 0 },
    { .now = 5, .arrives = 5, .prio = 0 },
    { .now = 6, .line = "tc qdisc change dev a handle 1: prio bands 3 priomap 0 1 2 2 2 2 2 2 2 2 2 2 2 2 2 2" },
    { .now = 7, .line = "tc qdisc add dev a parent 1:3 handle 4: tbf rate 1mbit burst 1500 limit 10000" },
    { .now = 8, .arrives = 6, .prio = 2 },
    { .now = 8, .arrives = 7, .prio = 2 },
    { .now = 8, .gives = 4 },
    { .now = 8, .gives = 5 },
    { .now = 8, .gives = 2 },
    { .now = 8, .gives = 6 },
    { .now = 9, .code = QTREE_LATER },
    { .now = 10, .line = "tc class change dev a classid 2:1 drr quantum 500" },
    { .now = 10, .line = "tc filter del dev a parent 2: prio 1" },
    { .now = 11, .arrives = 8, .prio = 0, .code = QTREE_LOST_NO_CLASS },
    { .now = 12, .line = "tc class del dev a classid 2:1" },
    { .now = 13, .line = "tc qdisc change dev a handle 1: prio bands 2 priomap 0 1 1 1 1 1 1 1 1 1 1 1 1 1 1 1" },
    { .now = 14, .line = "tc qdisc del dev a handle 1:" },
    { .now = 15, .line = "tc qdisc del dev a handle 1:", .code = QTREE_REFUSED_NO_QDISC },
    { .now = 15, .arrives = 9, .prio = 0 },
    { .now = 16, .gives = 9 },
    { .now = 16, .code = QTREE_IDLE },
};

/* Each step is made or refused as it has to be, and counts at its own time. One of the texts shows each command that is carried out, and
 * what is refused changes nothing. At the end each packet that no poll returned was lost once. */
static void play_tree(void) {
    const qtree_settings settings = { 100, 3, 1500 };
    const uint32_t one = 1;
    CHECK(insist(opens, &settings) == QTREE_DONE && insist(keeps_last, &one) == QTREE_DONE);
    for (size_t i = 0; i < sizeof tree / sizeof tree[0]; i++) {
        const struct step *step = &tree[i];
        CHECK(insist(makes, step) == step->code);
        CHECK(is_same() == is_refusal(step->code) && (is_refusal(step->code) || after.last.moment == step->now));
        CHECK(!step->line || is_refusal(step->code) || memcmp(before.text, after.text, sizeof before.text) != 0);
    }
    static const qtree_code lost[][2] = {
        { 1, QTREE_LOST_PURGED },
        { 3, QTREE_LOST_FAT_FLOW },
        { 8, QTREE_LOST_NO_CLASS },
        { 7, QTREE_LOST_PURGED },
    };
    qtree_loss loss;
    for (size_t i = 0; i < sizeof lost / sizeof lost[0]; i++) {
        CHECK(qtree_reap(&device, &loss) == QTREE_DONE && loss.packet.number == lost[i][0] && loss.cause == lost[i][1]);
    }
    CHECK(qtree_reap(&device, &loss) == QTREE_NOTHING);
    qtree_close(&device);
}

int main(void) {
    const qtree_settings settings = { 1000, 16, 1514 };
    const uint32_t few = 4, more = 8;
    CHECK(insist(opens, &settings) == QTREE_DONE && insist(keeps_last, &few) == QTREE_DONE);
    play_lines();
    play_packets();
    CHECK(after.kept == few && after.noted > 4 * few && insist(keeps_last, &more) == QTREE_DONE);
    play_whole_rings();
    play_new_rings();
    for (uint32_t what = QTREE_SHOW_QDISCS; what <= QTREE_SHOW_FILTERS; what++) {
        CHECK(insist(shows, &what) == QTREE_DONE);
    }
    CHECK(insist(explains, "tc qdisc ad dev a root") == QTREE_DONE);
    CHECK(insist(explains_other, "tc qdisc show") == QTREE_DONE);
    play_without_memory();
    play_in_room();
    CHECK(insist(commands, "tc qdisc del dev a root") == QTREE_DONE);
    qtree_port_close(&port);
    qtree_outlet_close(&outlet);
    qtree_close(&device);
    play_tree();
    printf("refused: %lu allocations failed, each with QTREE_MEMORY, and the calls then succeeded\n", refusals);
    return 0;
}
