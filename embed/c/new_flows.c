/* The promise to a flow that joins an fq_codel, asked of random plays. Each round sets up an fq_codel of a few flows, at the root or below a tbf,
 * with packets that come and are polled at random, and quanta that commands change. In most rounds each flow sends as much as it may before it waits
 * for a quantum: a byte less than its credits, and then a longest packet. The program keeps the two lists and the credits of the flows by
 * itself, and says which packet leaves next. Where a packet comes to a flow that is in neither list, it compares what the device has sent once this
 * packet leaves with what the flows of the new list that have credits may send before. It counts how often that bound is met exactly behind such
 * flows, and fails if it never is, since a smaller one would do then.
 *
 *   build/new_flows [ROUNDS [SEED]]            the test; on failure it prints the seed and the round
 *   build/new_flows --sooner [ROUNDS [SEED]]   with a bound that is a byte less behind such flows, which has to fail
 *   build/new_flows --spent [ROUNDS [SEED]]    with a bound in which a flow with one byte of credits counts as one without, which has to fail */
#include "qtree.h"

#include <errno.h>
#include <inttypes.h>
#include <stdarg.h>
#include <stdbool.h>
#include <stddef.h>
#include <stdio.h>
#include <stdlib.h>
#include <string.h>

/* The most packets that wait in a flow. A packet has the number of its flow for its port and its hash. */
enum { ROUNDS = 3000, STEPS = 120, FLOWS = 8, MOST = 32, ENOUGH_ROUNDS = 50 };

__extension__ typedef unsigned __int128 wide;

struct waiting {
    uint64_t bound; /* of the bytes that the device has sent when this packet leaves; UINT64_MAX where none was promised */
    uint16_t len;
    bool is_behind; /* flows with credits were in the new list before it */
};

struct flow {
    struct waiting line[MOST];
    unsigned head, count;
    int64_t credits;
    bool is_listed;
};

struct list {
    unsigned flows[FLOWS], count;
};

struct play {
    qtree_device device;
    uint64_t clock, tick; /* in which the rate of the tbf brings a longest packet */
    uint64_t sent;        /* bytes that the device has sent */
    uint32_t quantum;
    uint16_t mtu;
    bool has_tbf, is_random;
    struct flow flows[FLOWS];
    struct list fresh, old;
    unsigned held_flow; /* the flow of the packet that the fq_codel holds */
    struct waiting held;
    bool holds;
};

static uint64_t state, seed = 7, compared, behind, met;
static unsigned round_now;
static bool is_sooner, is_spent;

/* A random number below this one. */
static uint64_t below(uint64_t end) {
    state += UINT64_C(0x9e3779b97f4a7c15);
    uint64_t it = (state ^ (state >> 30)) * UINT64_C(0xbf58476d1ce4e5b9);
    it = (it ^ (it >> 27)) * UINT64_C(0x94d049bb133111eb);
    return (uint64_t)((wide)(it ^ (it >> 31)) * end >> 64);
}

/* Ends the program with what is wrong, and with the tree. */
static void fail(const struct play *play, const char *what) {
    static uint8_t text[8192];
    size_t len = 0;
    fprintf(stderr, "new_flows: %s, in round %u of seed %" PRIu64 ", at %" PRIu64 " ns, mtu %u, quantum %" PRIu32 "\n", what, round_now, seed,
            play->clock, play->mtu, play->quantum);
    if (qtree_show(&play->device, QTREE_SHOW_COUNTERS, text, sizeof text, &len) == QTREE_DONE) {
        fwrite(text, 1, len, stderr);
    }
    exit(1);
}

static void must(const struct play *play, bool holds, const char *what) {
    if (!holds) {
        fail(play, what);
    }
}

__attribute__((format(printf, 2, 3))) static void tc(struct play *play, const char *format, ...) {
    char line[256];
    va_list words;
    va_start(words, format);
    vsnprintf(line, sizeof line, format, words);
    va_end(words);
    must(play, qtree_run(&play->device, line, play->clock, NULL) == QTREE_DONE, line);
}

/* ---- the lists of the fq_codel (RFC 8290, section 4.2) */

static void push(struct list *list, unsigned flow) { list->flows[list->count++] = flow; }

static unsigned pop(struct list *list) {
    unsigned first = list->flows[0];
    memmove(list->flows, list->flows + 1, --list->count * sizeof list->flows[0]);
    return first;
}

/* The flow that gives next is in front of its list then. A flow without credits gets a quantum, and goes to the end of the old list; one without
 * packets goes there from the new list, and from the old one to none. */
static struct flow *front(struct play *play) {
    while (play->fresh.count + play->old.count != 0) {
        struct list *list = play->fresh.count != 0 ? &play->fresh : &play->old;
        unsigned first = list->flows[0];
        struct flow *flow = &play->flows[first];
        if (flow->credits <= 0) {
            flow->credits += play->quantum;
            push(&play->old, pop(list));
        } else if (flow->count != 0) {
            play->held_flow = first;
            return flow;
        } else if (list == &play->fresh) {
            push(&play->old, pop(list));
        } else {
            pop(list);
            flow->is_listed = false;
        }
    }
    return NULL;
}

/* The fq_codel is asked: it holds the packet that leaves next. */
static void ask(struct play *play) {
    struct flow *flow = play->holds ? NULL : front(play);
    if (flow != NULL) {
        play->held = flow->line[flow->head];
        flow->head = (flow->head + 1) % MOST;
        flow->count--;
        flow->credits -= play->held.len;
        play->holds = true;
    }
}

/* What the flows of the new list may send before one that joins. */
static uint64_t reach(const struct play *play) {
    uint64_t sum = 0;
    for (unsigned i = 0; i < play->fresh.count; i++) {
        int64_t credits = play->flows[play->fresh.flows[i]].credits;
        sum += credits > is_spent ? (uint64_t)credits + play->mtu - 1 : 0;
    }
    return sum;
}

/* ---- what happens */

static uint64_t queued(const struct flow *flow) {
    uint64_t sum = 0;
    for (unsigned i = 0; i < flow->count; i++) {
        sum += flow->line[(flow->head + i) % MOST].len;
    }
    return sum;
}

/* The length of a packet with which a flow comes to send as much as it may: up to one byte of its credits, and a longest packet then. */
static uint16_t length(const struct play *play, const struct flow *flow) {
    int64_t left = (flow->is_listed ? flow->credits : play->quantum) - (int64_t)queued(flow);
    if (play->is_random || left < 1) {
        return (uint16_t)(1 + below(play->mtu));
    }
    return left == 1 ? play->mtu : (uint16_t)(left - 1 < play->mtu ? left - 1 : play->mtu);
}

/* A packet comes to a flow, which joins the new list where it is in none. */
static void arrive(struct play *play, unsigned number) {
    struct flow *flow = &play->flows[number];
    uint16_t len = length(play, flow);
    if (flow->count == MOST) {
        return;
    }
    struct waiting *last = &flow->line[(flow->head + flow->count) % MOST];
    *last = (struct waiting){ UINT64_MAX, len, false };
    qtree_packet packet = { .len = len, .port = number, .hash = number };
    must(play, qtree_arrive(&play->device, &packet, play->clock) == QTREE_DONE, "a packet is lost");
    if (!flow->is_listed) {
        last->bound = play->sent + (play->holds ? play->held.len : 0) + reach(play) + len;
        last->is_behind = reach(play) != 0;
        flow->credits = play->quantum;
        flow->is_listed = true;
        push(&play->fresh, number);
    }
    flow->count++;
}

/* The packet that was said to leave next does, within its bound. */
static void leave(struct play *play, const qtree_sent *sent) {
    must(play, play->holds && sent->port == play->held_flow && sent->len == play->held.len, "another packet leaves");
    play->sent += sent->len;
    play->holds = false;
    if (play->held.bound != UINT64_MAX) {
        char text[160];
        uint64_t bound = play->held.bound - (is_sooner && play->held.is_behind);
        compared++;
        behind += play->held.is_behind;
        met += play->held.is_behind && play->sent == bound;
        if (play->sent > bound) {
            snprintf(text, sizeof text, "%" PRIu64 " is past the bound by the bytes, %" PRIu64, play->sent, bound);
            fail(play, text);
        }
    }
}

/* One poll, after some time. */
static bool poll(struct play *play) {
    qtree_sent sent;
    play->clock += play->has_tbf ? below(play->tick + 1) : 0;
    ask(play);
    qtree_code code = qtree_poll_buf(&play->device, play->clock, &sent);
    must(play, (code == QTREE_IDLE) == !play->holds, "an fq_codel with packets is idle");
    must(play, code == QTREE_DONE || code == QTREE_IDLE || play->has_tbf, "a packet waits without a tbf");
    if (code == QTREE_DONE) {
        leave(play, &sent);
    }
    return play->holds || code == QTREE_DONE;
}

static uint32_t random_quantum(const struct play *play) { return (uint32_t)(1 + below(below(4) == 0 ? 8 * (uint64_t)play->mtu : play->mtu)); }

/* Another quantum changes what a flow gets from then on, and no credits. */
static void change_quantum(struct play *play) {
    play->quantum = random_quantum(play);
    tc(play, "tc qdisc change dev wan %s handle 2: fq_codel quantum %" PRIu32, play->has_tbf ? "parent 1:1" : "root", play->quantum);
}

static void open_play(struct play *play) {
    memset(play, 0, sizeof *play);
    play->mtu = (uint16_t)(below(32) == 0 ? 1514 : 1 + below(below(4) == 0 ? 300 : 40));
    play->has_tbf = below(2) == 0;
    play->is_random = below(4) == 0;
    play->quantum = random_quantum(play);
    play->tick = play->mtu * UINT64_C(1000);
    must(play, qtree_open(&play->device, &(qtree_settings){ 1000, 0, play->mtu }) == QTREE_DONE, "no device");
    if (play->has_tbf) {
        tc(play, "tc qdisc add dev wan root handle 1: tbf rate 8mbit burst %ub limit 9000", play->mtu + 1u);
    }
    tc(play, "tc qdisc add dev wan %s handle 2: fq_codel limit 10000 flows %d quantum %" PRIu32 " target 1000s interval 1000s",
       play->has_tbf ? "parent 1:1" : "root", FLOWS, play->quantum);
}

static void play_round(struct play *play) {
    open_play(play);
    for (unsigned i = 0; i < STEPS; i++) {
        unsigned flow = (unsigned)below(FLOWS);
        for (uint64_t count = below(2) == 0 ? 1 : 1 + below(6); count > 0; count--) {
            arrive(play, flow);
        }
        for (uint64_t count = below(4); count > 0; count--) {
            poll(play);
        }
        if (below(12) == 0) {
            change_quantum(play);
        }
    }
    while (poll(play)) {
    }
    qtree_close(&play->device);
}

static bool read_number(const char *word, uint64_t *number) {
    char *end;
    errno = 0;
    *number = strtoull(word, &end, 10);
    return *word >= '0' && *word <= '9' && *end == 0 && errno == 0;
}

int main(int argc, char **argv) {
    static struct play play = { .device = QTREE_CLOSED };
    uint64_t rounds = ROUNDS;
    int at = 1;
    is_sooner = argc > 1 && strcmp(argv[1], "--sooner") == 0;
    is_spent = argc > 1 && strcmp(argv[1], "--spent") == 0;
    at += is_sooner || is_spent;
    if (argc - at > 2 || (argc > at && !read_number(argv[at], &rounds)) || (argc > at + 1 && !read_number(argv[at + 1], &seed))) {
        fprintf(stderr, "usage: new_flows [--sooner | --spent] [ROUNDS [SEED]]\n");
        return 2;
    }
    state = seed;
    for (; round_now < rounds; round_now++) {
        play_round(&play);
    }
    printf("new_flows: %" PRIu64 " flows joined in %" PRIu64 " rounds, each as soon as was promised\n", compared, rounds);
    printf("new_flows: %" PRIu64 " of them behind new flows with credits, of which %" PRIu64 " meet the bound exactly\n", behind, met);
    if (met == 0 && rounds >= ENOUGH_ROUNDS) {
        fprintf(stderr, "new_flows: the bound is never met, so that a smaller one would do, with seed %" PRIu64 "\n", seed);
        return 1;
    }
    return fflush(stdout) == 0 ? 0 : 1;
}
