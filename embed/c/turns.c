/* The promise about delay to a class of a drr, asked of random plays. Each round sets up a drr of three classes, at the root or below a tbf whose
 * burst has just enough room or more, with a pfifo or bfifo in one of them. The other two never run out of packets, most often of single
 * bytes, so that they leave nothing of what they may send. In most rounds the fifo is filled for the first time in the worst state that a drr can
 * be in: commands that change quanta have left the other classes the greatest deficits and this one a byte, the others are before it, the drr holds
 * a longest packet, and nothing is left of the burst. Packets come in bursts and pauses then, and polls are as late as they may be. Before each
 * packet for the fifo the program asks qtree_worst and qtree_latest, right after it qtree_latest again, and then after every seventh packet that
 * leaves, as long as it is the last one in the fifo. It compares with that what the device sends until the packet has left, and when it leaves. It
 * counts how often each bound is met exactly, and fails if one never is, since a smaller one would do then.
 *
 *   build/turns [ROUNDS [SEED]]                   the test; on failure it prints the seed and the round
 *   build/turns --sooner [ROUNDS [SEED]]          with each bound of qtree_worst a byte or a nanosecond less, which has to fail
 *   build/turns --sooner-latest [ROUNDS [SEED]]   the same with those of qtree_latest
 *   build/turns --later [ROUNDS [SEED]]           with polls later than is allowed, which has to fail */
#include "qtree.h"

#include <errno.h>
#include <inttypes.h>
#include <stdarg.h>
#include <stdbool.h>
#include <stddef.h>
#include <stdio.h>
#include <stdlib.h>
#include <string.h>

/* The most packets of the fifo in a round, and those that come at once. A packet has the number of its class for its port. */
enum { ROUNDS = 2000, STEPS = 30, AT_ONCE = 24, MOST = 8192, CLASSES = 3, WAITING = 3, ENOUGH_ROUNDS = 50, POLLS_PER_ASK = 7 };

/* The tokens of a byte: the rate in bits a second is also how many come in a nanosecond. */
static const uint64_t BYTE = UINT64_C(8000000000);
__extension__ typedef unsigned __int128 wide;

/* The bounds. The first ones are compared when a packet leaves: what the device has sent, and the time, less the lateness of the poll. AGAIN is the
 * least answer since the packet came. The last two are bounds of the answer right after it came. */
enum bound {
    WORST_BYTES, ASKED_BYTES, AGAIN_BYTES,
    WORST_TIME, ASKED_TIME, FILLED_TIME, TOLD_TIME, AGAIN_TIME, LEAVING,
    RISES = LEAVING, STANDS, BOUNDS
};
static const char *const names[BOUNDS] = {
    "bytes of qtree_worst",
    "bytes of qtree_latest, asked before",
    "bytes of qtree_latest, asked later",
    "ns of qtree_worst",
    "time of qtree_latest, asked before",
    "time of a bucket that fills before",
    "time of qtree_latest, asked after",
    "time of qtree_latest, asked later",
    "first answer, for the second one",
    "full bucket, for the second answer",
};

struct kept {
    uint64_t bounds[LEAVING]; /* of bytes that the device has sent, and of time; UINT64_MAX where nothing is promised */
};

struct play {
    qtree_device device;
    uint64_t rate, burst; /* of the tbf at the root; 0 if there is none */
    uint64_t limit;       /* of the fifo, in bytes, or in packets of a pfifo */
    uint64_t tick;        /* in which the rate brings a longest packet */
    uint64_t greatest;    /* lateness of a poll */
    uint64_t clock;       /* the time of what happens */
    uint64_t event;       /* the time of the device's last event */
    uint64_t due, poll_at; /* since when a poll is due, and when it comes; UINT64_MAX if none is due */
    uint64_t sent;        /* bytes */
    uint64_t left;        /* packets of all classes */
    uint32_t quanta[CLASSES + 1];
    uint16_t own, mtu; /* the class of the fifo, 1 to 3 */
    bool is_pfifo, is_single;
    struct kept line[MOST];
    size_t head, tail;
};

static uint64_t state, seed = 7, compared, met[BOUNDS];
static unsigned round_now;
static bool is_worst_sooner, is_latest_sooner, is_later;

/* A random number below this one. */
static uint64_t below(uint64_t end) {
    state += UINT64_C(0x9e3779b97f4a7c15);
    uint64_t it = (state ^ (state >> 30)) * UINT64_C(0xbf58476d1ce4e5b9);
    it = (it ^ (it >> 27)) * UINT64_C(0x94d049bb133111eb);
    return (uint64_t)((wide)(it ^ (it >> 31)) * end >> 64);
}

static uint64_t less(uint64_t a, uint64_t b) { return a < b ? a : b; }
static uint64_t greater(uint64_t a, uint64_t b) { return a > b ? a : b; }

/* Ends the program with what is wrong, and with the tree. */
static void fail(const struct play *play, const char *what) {
    static uint8_t text[8192];
    size_t len = 0;
    fprintf(stderr, "turns: %s, in round %u of seed %" PRIu64 ", at %" PRIu64 " ns, mtu %u\n", what, round_now, seed, play->clock, play->mtu);
    for (uint32_t which = QTREE_SHOW_COUNTERS; which <= QTREE_SHOW_CLASSES; which++) {
        if (qtree_show(&play->device, which, text, sizeof text, &len) == QTREE_DONE) {
            fwrite(text, 1, len, stderr);
        }
    }
    exit(1);
}

static void must(const struct play *play, bool holds, const char *what) {
    if (!holds) {
        fail(play, what);
    }
}

/* A number is no more than a bound. */
static void is_within(const struct play *play, enum bound which, uint64_t number, uint64_t bound) {
    char text[160];
    bool is_worst = which == WORST_BYTES || which == WORST_TIME;
    met[which] += number == bound;
    bound -= is_worst ? is_worst_sooner : is_latest_sooner;
    if (number > bound) {
        snprintf(text, sizeof text, "%" PRIu64 " is past the bound by the %s, %" PRIu64, number, names[which], bound);
        fail(play, text);
    }
}

__attribute__((format(printf, 2, 3))) static void tc(struct play *play, const char *format, ...) {
    char line[256];
    va_list words;
    va_start(words, format);
    vsnprintf(line, sizeof line, format, words);
    va_end(words);
    must(play, qtree_run(&play->device, line, play->clock, NULL) == QTREE_DONE, line);
    play->event = play->clock;
}

/* How late the next poll is. */
static uint64_t lateness(const struct play *play) {
    switch (below(3)) {
    case 0: return 0;
    case 1: return play->greatest;
    default: return below(play->greatest + 1);
    }
}

/* After an event: since when a poll is due. If ready_at is ahead it is then, and otherwise since now, or since it was due before. */
static void plan(struct play *play, uint64_t now) {
    uint64_t ready, due = UINT64_MAX;
    play->clock = now;
    if (qtree_ready_at(&play->device, &ready) == QTREE_DONE) {
        due = ready > now ? ready : less(play->due, now);
    }
    if (due != play->due) {
        play->due = due;
        play->poll_at = due == UINT64_MAX ? due : due + lateness(play);
    }
}

/* Asks the longest delay of the fifo. */
static qtree_delay worst(const struct play *play) {
    qtree_delay it = { 0 };
    must(play, qtree_worst(&play->device, QTREE_CLASS, 2, play->own, &it) == QTREE_DONE, "qtree_worst has no promise");
    must(play, (it.ns == UINT64_MAX) == (play->rate == 0) && (it.late == UINT64_MAX) == (play->rate == 0), "qtree_worst has a time without a tbf");
    return it;
}

/* By when a packet of this length leaves the fifo that arrives as the device's next event, or the last one. */
static qtree_departure latest(const struct play *play, uint64_t len) {
    qtree_departure it = { 0 };
    must(play, qtree_latest(&play->device, QTREE_CLASS, 2, play->own, (uint16_t)len, &it) == QTREE_DONE, "qtree_latest has no promise");
    must(play, (it.at == UINT64_MAX) == (play->rate == 0) && (it.late == UINT64_MAX) == (play->rate == 0), "qtree_latest has a time without a tbf");
    return it;
}

static qtree_code arrive(struct play *play, uint16_t class, uint64_t len) {
    qtree_packet packet = { .len = (uint16_t)len, .buf = (uint32_t)play->tail, .port = class, .sport = class };
    play->event = play->clock;
    return qtree_arrive(&play->device, &packet, play->clock);
}

/* A packet for another class. */
static void arrive_other(struct play *play, uint16_t class) {
    must(play, arrive(play, class, play->is_single ? 1 : 1 + below(play->mtu)) == QTREE_DONE, "a packet of another class is lost");
}

/* The time at which the tbf has paid so many bytes if its bucket is full now, less what a late poll may lose; or the answered one, if later. */
static uint64_t filled(const struct play *play, const qtree_departure *asked) {
    wide level = (wide)play->burst * BYTE - (wide)play->rate * asked->late, wanted = (wide)asked->bytes * BYTE;
    return greater(asked->at, play->clock + (uint64_t)(wanted <= level ? 0 : (wanted - level + play->rate - 1) / play->rate));
}

/* The fifo keeps a packet: what was answered before and what is answered now agree, and both bound when it leaves. Nothing is promised yet if
 * quanta are to change. */
static void keep(struct play *play, const qtree_delay *delay, const qtree_departure *asked, uint64_t passed, bool is_promised) {
    qtree_departure told = latest(play, 0);
    must(play, play->tail < MOST, "too many packets");
    struct kept *kept = &play->line[play->tail++];
    must(play, told.bytes == asked->bytes && told.bytes <= delay->bytes, "other bytes are answered after the packet came");
    must(play, passed != 0 || told.at == asked->at, "another time is answered right after the packet came");
    must(play, told.late == asked->late && told.late == delay->late, "qtree_latest and qtree_worst differ");
    for (enum bound which = 0; which < LEAVING; which++) {
        kept->bounds[which] = UINT64_MAX;
    }
    if (play->rate != 0 && passed != 0) {
        is_within(play, RISES, told.at, asked->at + passed);
        is_within(play, STANDS, told.at, filled(play, asked));
    }
    if (!is_promised) {
        return;
    }
    kept->bounds[WORST_BYTES] = play->sent + delay->bytes;
    kept->bounds[ASKED_BYTES] = play->sent + asked->bytes;
    if (play->rate != 0) {
        kept->bounds[WORST_TIME] = play->clock + delay->ns;
        kept->bounds[ASKED_TIME] = asked->at + passed;
        kept->bounds[FILLED_TIME] = filled(play, asked);
        kept->bounds[TOLD_TIME] = told.at;
    }
}

/* Asks by when the last packet of the fifo leaves, from the state of the moment. */
static void ask_again(struct play *play) {
    if (play->head == play->tail) {
        return;
    }
    struct kept *kept = &play->line[play->tail - 1];
    qtree_departure told = latest(play, 0);
    kept->bounds[AGAIN_BYTES] = less(kept->bounds[AGAIN_BYTES], play->sent + told.bytes);
    kept->bounds[AGAIN_TIME] = less(kept->bounds[AGAIN_TIME], told.at);
}

/* A packet for the fifo; whether it is kept. */
static bool arrive_own(struct play *play, uint64_t len, bool is_promised) {
    uint64_t passed = play->clock - play->event;
    qtree_delay delay = worst(play);
    qtree_departure asked = latest(play, len);
    qtree_code code = arrive(play, play->own, len);
    must(play, code == QTREE_DONE || code == QTREE_LOST_OVER_LIMIT, "a packet for the fifo is lost");
    if (code == QTREE_DONE) {
        keep(play, &delay, &asked, passed, is_promised);
    }
    qtree_loss loss;
    while (qtree_reap(&play->device, &loss) == QTREE_DONE) {
        must(play, loss.cause == QTREE_LOST_OVER_LIMIT && loss.packet.port == play->own, "another packet is lost");
    }
    return code == QTREE_DONE;
}

/* A packet of the fifo leaves: those before it have left, and it keeps to the bounds. */
static void leave(struct play *play, uint32_t buf, uint64_t now, uint64_t late) {
    const struct kept *kept = &play->line[play->head];
    must(play, play->head < play->tail && buf == play->head, "a packet of the fifo leaves out of turn");
    for (enum bound which = 0; which < LEAVING; which++) {
        bool is_bytes = which < WORST_TIME;
        if (is_bytes || play->rate != 0) {
            is_within(play, which, is_bytes ? play->sent : now - late, kept->bounds[which]);
        }
    }
    play->head++;
    compared++;
}

/* One poll. After a packet of another class the next one comes there. */
static bool polled(struct play *play, uint64_t now) {
    qtree_sent sent;
    play->event = now;
    if (qtree_poll_buf(&play->device, now, &sent) != QTREE_DONE) {
        return false;
    }
    must(play, play->due <= now, "a poll before ready_at returns a packet");
    play->sent += sent.len;
    play->clock = now;
    if (sent.port == play->own) {
        leave(play, sent.buf, now, now - play->due);
    } else {
        arrive_other(play, (uint16_t)sent.port);
    }
    if (++play->left % POLLS_PER_ASK == 0) {
        ask_again(play);
    }
    return true;
}

/* Polls until no packet comes, or without a tbf some times. */
static void drain(struct play *play, uint64_t now) {
    uint64_t most = play->rate == 0 ? 1 + below(4) : UINT64_MAX;
    while (most != 0 && polled(play, now)) {
        most--;
    }
    play->due = play->poll_at = UINT64_MAX;
    plan(play, now);
}

/* ---- the set-up */

static void add_tbf(struct play *play) {
    play->rate = 1 + below(UINT64_C(1) << below(36));
    play->burst = play->mtu + (play->rate + BYTE - 1) / BYTE + (below(3) == 0 ? 0 : below(4 * (uint64_t)play->mtu));
    play->tick = (play->mtu * BYTE + play->rate - 1) / play->rate;
    tc(play, "tc qdisc add dev wan root handle 1: tbf rate %" PRIu64 "bit burst %" PRIu64 "b limit 9000", play->rate, play->burst);
}

/* The quantum of a class, which mostly is not worth more than some longest packets, and here needs few grants for the fifo. */
static uint32_t random_quantum(const struct play *play, uint16_t class) {
    uint64_t whole = play->is_pfifo ? play->limit * play->mtu : play->limit;
    return (uint32_t)(1 + below(2 * (uint64_t)play->mtu) + (class == play->own ? whole / 8 : 0));
}

static void add_class(struct play *play, uint16_t class, uint64_t quantum) {
    tc(play, "tc class add dev wan parent 2: classid 2:%u drr quantum %" PRIu64, class, quantum);
    tc(play, "tc filter add dev wan parent 2: prio %u flower src_port %u classid 2:%u", class, class, class);
    if (class == play->own) {
        tc(play, "tc qdisc add dev wan parent 2:%u handle f: %s limit %" PRIu64, class, play->is_pfifo ? "pfifo" : "bfifo", play->limit);
    }
}

static void change_quantum(struct play *play, uint16_t class, uint64_t quantum) {
    tc(play, "tc class change dev wan parent 2: classid 2:%u drr quantum %" PRIu64, class, quantum);
}

static void open_play(struct play *play) {
    memset(play, 0, offsetof(struct play, line));
    play->head = play->tail = 0;
    play->mtu = (uint16_t)(below(32) == 0 ? 1514 : 1 + below(below(4) == 0 ? 300 : 40));
    play->is_single = below(4) != 0;
    play->due = play->poll_at = UINT64_MAX;
    play->tick = 1000;
    play->own = (uint16_t)(1 + below(CLASSES));
    play->is_pfifo = below(3) == 0;
    play->limit = 1 + below(play->is_pfifo ? 8 : 8 * (uint64_t)play->mtu);
    must(play, qtree_open(&play->device, &(qtree_settings){ 1000, 0, play->mtu }) == QTREE_DONE, "no device");
    if (below(4) != 0) {
        add_tbf(play);
    }
    tc(play, "tc qdisc add dev wan %s handle 2: drr", play->rate == 0 ? "root" : "parent 1:1");
    for (uint16_t class = 1; class <= CLASSES; class++) {
        play->quanta[class] = random_quantum(play, class);
    }
}

/* The classes with their quanta, and some packets in the others. */
static void begin_calmly(struct play *play) {
    for (uint16_t class = 1; class <= CLASSES; class++) {
        add_class(play, class, play->quanta[class]);
        for (unsigned i = 0; i < WAITING && class != play->own; i++) {
            arrive_other(play, class);
        }
    }
}

/* The packets of another class with which the burst is spent, but for a last one, which the drr holds. */
static void spend_burst(struct play *play, uint16_t class) {
    for (uint64_t left = play->burst, len; left > 0; left -= len) {
        len = less(left, play->mtu);
        must(play, arrive(play, class, len) == QTREE_DONE, "a packet of another class is lost");
    }
    must(play, arrive(play, class, play->mtu) == QTREE_DONE, "a packet of another class is lost");
}

/* The drr in its worst state: the first of the others has the quantum for what is sent at first, and each of them more than it may keep. */
static void begin_in_spite(struct play *play) {
    bool is_first = true;
    for (uint16_t class = 1; class <= CLASSES; class++) {
        add_class(play, class, class == play->own ? 1 : play->quanta[class] + play->burst + 2 * (uint64_t)play->mtu);
    }
    for (uint16_t class = 1; class <= CLASSES; class++) {
        if (class != play->own && is_first && play->rate != 0) {
            spend_burst(play, class);
        }
        for (unsigned i = 0; i < WAITING && class != play->own; i++) {
            arrive_other(play, class);
        }
        is_first = is_first && class == play->own;
    }
    arrive_own(play, play->is_pfifo ? play->mtu : 1, false);
    plan(play, 0);
    if (play->rate != 0) {
        drain(play, 0);
    }
    for (uint16_t class = 1; class <= CLASSES; class++) {
        change_quantum(play, class, play->quanta[class]);
    }
    ask_again(play);
    plan(play, 0);
}

/* ---- what happens */

/* Packets for the fifo that come at once, some of them as long as there is room. */
static void burst(struct play *play, uint64_t now) {
    uint64_t kind = below(4), count = 1 + below(AT_ONCE);
    play->clock = now;
    for (; count > 0; count--) {
        qtree_row row;
        must(play, qtree_stats(&play->device, QTREE_CLASS, 2, play->own, &row) == QTREE_DONE, "no fifo");
        uint64_t room = play->is_pfifo || play->limit <= row.queued.bytes ? play->mtu : play->limit - row.queued.bytes;
        uint64_t len = kind == 0 ? 1 + below(play->mtu) : kind == 1 ? 1 + below(less(play->mtu, 64)) : less(play->mtu, room);
        arrive_own(play, len, true);
        plan(play, now);
    }
}

/* Sets another limit, which takes no packet out of the fifo, or another quantum, where nothing waits there that was promised something. */
static void command(struct play *play, uint64_t now) {
    uint16_t class = (uint16_t)(1 + below(CLASSES));
    play->clock = now;
    if (below(2) == 0) {
        play->limit = 1 + below(less(2 * play->limit, 9 * (uint64_t)play->mtu) + 1);
        tc(play, "tc qdisc change dev wan parent 2:%u handle f: %s limit %" PRIu64, play->own, play->is_pfifo ? "pfifo" : "bfifo", play->limit);
    } else if (play->head == play->tail) {
        play->quanta[class] = random_quantum(play, class);
        change_quantum(play, class, play->quanta[class]);
    }
    plan(play, now);
}

static void step(struct play *play) {
    uint64_t now = play->clock + (below(3) == 0 ? 0 : below(play->tick * (below(8) == 0 ? 100 : 10)));
    while (play->poll_at <= now) {
        drain(play, play->poll_at);
    }
    if (below(6) == 0) {
        command(play, greater(now, play->clock));
    } else {
        burst(play, greater(now, play->clock));
    }
}

static void play_round(struct play *play) {
    open_play(play);
    if (below(4) == 0) {
        begin_calmly(play);
    } else {
        begin_in_spite(play);
        burst(play, 0);
    }
    uint64_t late = worst(play).late, most = play->rate == 0 ? 5 * play->tick : is_later ? 3 * late + play->tick : late;
    play->greatest = below(4) == 0 ? below(most + 1) : most;
    plan(play, play->clock);
    for (unsigned i = 0; i < STEPS; i++) {
        step(play);
    }
    while (play->head != play->tail) {
        drain(play, play->poll_at);
    }
    qtree_close(&play->device);
}

static bool read_number(const char *word, uint64_t *number) {
    char *end;
    errno = 0;
    *number = strtoull(word, &end, 10);
    return *word >= '0' && *word <= '9' && *end == 0 && errno == 0;
}

int main(int argc, char **argv) {
    static struct play play = { .device = QTREE_CLOSED };
    uint64_t rounds = ROUNDS;
    int at = 1;
    is_worst_sooner = argc > 1 && strcmp(argv[1], "--sooner") == 0;
    is_latest_sooner = argc > 1 && strcmp(argv[1], "--sooner-latest") == 0;
    is_later = argc > 1 && strcmp(argv[1], "--later") == 0;
    at += is_worst_sooner || is_latest_sooner || is_later;
    if (argc - at > 2 || (argc > at && !read_number(argv[at], &rounds)) || (argc > at + 1 && !read_number(argv[at + 1], &seed))) {
        fprintf(stderr, "usage: turns [--sooner | --sooner-latest | --later] [ROUNDS [SEED]]\n");
        return 2;
    }
    state = seed;
    for (; round_now < rounds; round_now++) {
        play_round(&play);
    }
    bool is_met = true;
    for (enum bound which = 0; which < BOUNDS; which++) {
        printf("turns: the bound by the %-35s is met exactly %7" PRIu64 " times\n", names[which], met[which]);
        is_met = is_met && (met[which] != 0 || rounds < ENOUGH_ROUNDS);
    }
    printf("turns: %" PRIu64 " packets left in %" PRIu64 " rounds, each as soon as was promised\n", compared, rounds);
    if (!is_met) {
        fprintf(stderr, "turns: a bound is never met, so that a smaller one would do, with seed %" PRIu64 "\n", seed);
    }
    return is_met && fflush(stdout) == 0 ? 0 : 1;
}
