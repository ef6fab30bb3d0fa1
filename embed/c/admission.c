/* Admission control: a program asks, before a packet arrives, by when it will have left, and refuses it at once if that is past its deadline.
 * More packets come than a link of 20 Mbit/s can send, and polls are late at random. The program prints what it was promised beside what it
 * measured, and what the same packets meet without admission control. docs/EMBEDDING.md shows a part of this program.
 *
 * What to change to try:
 *   DEADLINE    with 25 milliseconds, the fifo is full and loses packets before the program refuses one: the answer does not look at the limit
 *   LOAD        with 90 percent, some few packets are refused, of bursts that are too long
 *   burst       with 6056, polls may be three times as late, and packets leave as much later; with 1514, nothing is promised, and all packets
 *               are refused
 *   plan        with polls that come up to twice as late, the tbf loses a part of its rate, and packets leave later than they were promised */
#include "check.h"
#include "qtree.h"

#include <inttypes.h>
#include <stdbool.h>

/* Times are in nanoseconds. RATE is in bits a second, and LOAD in percent of it. */
enum { PACKETS = 100000, SHORTEST = 64, LONGEST = 1514, RATE = 20000000, LOAD = 130, PERIOD = 1000 };
static const uint64_t DEADLINE = 5000000, PAUSE = 30000000;

static const char *const lines[] = {
    "tc qdisc add dev wan root handle 1: tbf rate 20mbit burst 3028 limit 200000",
    "tc qdisc add dev wan parent 1:1 handle 2: bfifo limit 50000",
};

/* The same numbers in each run: a packet's length and time come from one source, and how late a poll is from another. */
struct source {
    uint64_t state;
};

static uint64_t below(struct source *source, uint64_t end) {
    source->state = source->state * UINT64_C(6364136223846793005) + UINT64_C(1442695040888963407);
    return (source->state >> 33) % end;
}

struct run {
    qtree_device device;
    uint64_t last_event;         /* the time of the last arrival, poll or command */
    uint64_t poll_at;            /* UINT64_MAX while none is needed */
    uint64_t late;               /* how late polls may be, and are at most */
    struct source lateness;
    uint64_t arrived[PACKETS];   /* by the buf of the packet, as are these */
    uint64_t promised[PACKETS];  /* by when it has left, but for the lateness; UINT64_MAX where nothing was asked */
    size_t refused, admitted, lost, left, too_late;
    uint64_t greatest_delay, greatest_excess, bytes, end;
};

/* Whether a packet of this length that arrives now in the fifo 1:1 will have left by its deadline, and by when it will. The answer counts
 * from the last event. If the packet arrives later than that, it leaves later by no more than the time between. */
static bool leaves_by(const qtree_device *device, uint16_t len, uint64_t last_event, uint64_t now, uint64_t deadline,
                      uint64_t *by) {
    qtree_departure departure;
    if (qtree_latest(device, QTREE_CLASS, 1, 1, len, &departure) != QTREE_DONE || departure.at == UINT64_MAX) {
        return false; /* nothing is promised, or, without a tbf at the root, no time */
    }
    *by = departure.at + (now - last_event);
    return *by <= deadline;
}

static void set_up(struct run *run) {
    const qtree_settings settings = QTREE_DEFAULTS;
    qtree_departure departure;
    CHECK(qtree_open(&run->device, &settings) == QTREE_DONE);
    for (size_t i = 0; i < sizeof lines / sizeof lines[0]; i++) {
        CHECK(qtree_run(&run->device, lines[i], 0, NULL) == QTREE_DONE);
    }
    bool is_promised = qtree_latest(&run->device, QTREE_CLASS, 1, 1, 0, &departure) == QTREE_DONE && departure.at != UINT64_MAX;
    run->late = is_promised ? departure.late : 0;
    run->lateness.state = 7;
    run->poll_at = UINT64_MAX;
}

/* When the program polls next: late by as much as it may be, or less. */
static void plan(struct run *run) {
    uint64_t due;
    run->poll_at = UINT64_MAX;
    if (qtree_ready_at(&run->device, &due) == QTREE_DONE) {
        run->poll_at = due + below(&run->lateness, run->late + 1);
    }
}

static uint64_t greater(uint64_t a, uint64_t b) { return a > b ? a : b; }

/* Polls until no packet comes. */
static void drain(struct run *run, uint64_t now) {
    qtree_sent sent;
    for (; qtree_poll_buf(&run->device, now, &sent) == QTREE_DONE; run->left++) {
        uint64_t arrived = run->arrived[sent.buf], promised = run->promised[sent.buf];
        run->greatest_delay = greater(run->greatest_delay, now - arrived);
        run->greatest_excess = greater(run->greatest_excess, now > promised ? now - promised : 0);
        run->too_late += now > arrived + DEADLINE + run->late;
        run->bytes += sent.len;
    }
    run->last_event = run->end = now;
    plan(run);
}

/* A packet is offered; the program refuses it, or it arrives. */
static void offer(struct run *run, uint32_t buf, uint16_t len, uint64_t now, bool is_controlled) {
    uint64_t by = UINT64_MAX;
    if (is_controlled && !leaves_by(&run->device, len, run->last_event, now, now + DEADLINE, &by)) {
        run->refused++;
        return;
    }
    run->admitted++;
    run->arrived[buf] = now;
    run->promised[buf] = by;
    qtree_code code = qtree_arrive(&run->device, &(qtree_packet){ .len = len, .buf = buf }, now);
    CHECK(code == QTREE_DONE || qtree_is_loss(code));
    for (qtree_loss loss; qtree_reap(&run->device, &loss) == QTREE_DONE; run->lost++) {
    }
    run->last_event = now;
    if (run->poll_at == UINT64_MAX) {
        plan(run);
    }
}

static void play(struct run *run, bool is_controlled) {
    const uint64_t gap = (SHORTEST + LONGEST) / 2 * UINT64_C(800000000000) / ((uint64_t)RATE * LOAD); /* on average */
    struct source packets = { 1 };
    uint64_t now = 0;
    set_up(run);
    for (uint32_t buf = 0; buf < PACKETS; buf++) {
        now += buf % PERIOD == 0 ? PAUSE : below(&packets, 2 * gap + 1); /* in a pause the link becomes idle */
        uint16_t len = (uint16_t)(SHORTEST + below(&packets, LONGEST - SHORTEST + 1));
        while (run->poll_at <= now) {
            drain(run, run->poll_at);
        }
        offer(run, buf, len, now, is_controlled);
    }
    while (run->poll_at != UINT64_MAX) {
        drain(run, run->poll_at);
    }
    CHECK(run->admitted == run->left + run->lost && run->admitted + run->refused == PACKETS);
    qtree_close(&run->device);
}

static void put_counts(const char *what, const char *promised, size_t with, size_t without) {
    printf("%-52s%12s%14zu%14zu\n", what, promised, with, without);
}

static void put_time(const char *what, uint64_t promised, uint64_t with, uint64_t without) {
    printf("%-52s%9.3f ms%11.3f ms%11.3f ms\n", what, (double)promised / 1e6, (double)with / 1e6, (double)without / 1e6);
}

static double rate_of(const struct run *run) { return run->end == 0 ? 0 : (double)run->bytes * 8e3 / (double)run->end; }

/* What is promised of each packet that the program admitted, and what was measured with and without admission control. */
static void tell(const struct run *with, const struct run *without) {
    printf("%-52s%12s%14s%14s\n", "admission control:", "promised", "with", "without");
    put_counts("packets offered", "", PACKETS, PACKETS);
    put_counts("refused by the program", "", with->refused, without->refused);
    put_counts("admitted", "", with->admitted, without->admitted);
    put_counts("of these, lost in the device", "0", with->lost, without->lost);
    put_counts("left after the deadline and the lateness of polls", "0", with->too_late, without->too_late);
    put_time("greatest delay, with that lateness", DEADLINE + with->late, with->greatest_delay, without->greatest_delay);
    printf("%-52s%9.3f ms%11.3f ms%14s\n", "left after the time that was answered, at most", (double)with->late / 1e6,
           (double)with->greatest_excess / 1e6, "-");
    printf("%-52s%12s%9.3f Mbit%9.3f Mbit\n", "sent in a second", "", rate_of(with), rate_of(without));
}

int main(void) {
    static struct run with = { .device = QTREE_CLOSED }, without = { .device = QTREE_CLOSED };
    play(&with, true);
    play(&without, false);
    tell(&with, &without);
    bool is_kept = with.lost == 0 && with.too_late == 0 && with.greatest_excess <= with.late;
    if (!is_kept) {
        fprintf(stderr, "packets were not sent as was promised\n");
    }
    return is_kept && fflush(stdout) == 0 ? 0 : 1;
}
