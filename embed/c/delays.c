/* The promises about delay, asked of random plays. Each round sets up a fifo that is promised something: at the root, below a tbf, or in the
 * first band of up to three prios, with bursts that have just enough room or more. Packets come in bursts and pauses, also in the bands
 * behind, commands change what may change, and polls are as late as they may be. Before each packet for the fifo the program asks qtree_worst
 * and qtree_latest, right after it qtree_latest again, and compares with that what the device sends until the packet has left, and when it
 * leaves. Where nothing is promised, as with a burst that lacks room, both must say so. It counts how often each bound is met exactly, and
 * fails if one never is, since a smaller one would do then.
 *
 *   build/delays [ROUNDS [SEED]]            the test; on failure it prints the seed and the round
 *   build/delays --sooner [ROUNDS [SEED]]   with each bound a byte or a nanosecond less, which has to fail
 *   build/delays --later [ROUNDS [SEED]]    with polls later than is allowed, which has to fail */
#include "qtree.h"

#include <errno.h>
#include <inttypes.h>
#include <stdarg.h>
#include <stdbool.h>
#include <stdio.h>
#include <stdlib.h>
#include <string.h>

/* The most packets of the fifo in a round, and those that come at once. FIFO is the port of packets for the fifo. */
enum { ROUNDS = 1500, STEPS = 120, AT_ONCE = 24, MOST = (STEPS + 1) * AT_ONCE, PRIOS = 3, FIFO = 1, OTHERS = 2, ENOUGH_ROUNDS = 50 };

/* The tokens of a byte: the rate in bits a second is also how many come in a nanosecond. */
static const uint64_t BYTE = UINT64_C(8000000000);
__extension__ typedef unsigned __int128 wide;

/* The bounds. The first ones are compared when a packet leaves: what was sent since it arrived, and the time, less the lateness of the poll.
 * The last two are bounds of the answer right after it arrived. */
enum bound { WORST_BYTES, ASKED_BYTES, WORST_TIME, ASKED_TIME, FILLED_TIME, TOLD_TIME, LEAVING, RISES = LEAVING, STANDS, BOUNDS };
static const char *const names[BOUNDS] = {
    "bytes of qtree_worst",
    "bytes of qtree_latest",
    "ns of qtree_worst",
    "time of qtree_latest, asked before",
    "time of a bucket that fills before",
    "time of qtree_latest, asked after",
    "first answer, for the second one",
    "full bucket, for the second answer",
};

struct kept {
    uint64_t bounds[LEAVING]; /* of bytes that the device has sent, and of time */
};

struct play {
    qtree_device device;
    uint64_t rate, burst; /* of the tbf at the root; 0 if there is none */
    uint64_t limit;       /* of the fifo, in bytes, or in packets of a pfifo */
    uint64_t tick;        /* in which the rate brings a longest packet */
    uint64_t greatest;    /* lateness of a poll */
    uint64_t clock;       /* the time of the last event */
    uint64_t due, poll_at; /* since when a poll is due, and when it comes; UINT64_MAX if none is due */
    uint64_t sent;        /* bytes */
    uint32_t place;       /* of the fifo, as are these */
    uint16_t major, minor;
    uint16_t mtu, txqueuelen;
    uint8_t prios;
    bool is_pfifo, is_implicit, has_other[PRIOS];
    struct kept line[MOST];
    size_t head, tail;
};

static uint64_t state, seed = 7, compared, met[BOUNDS];
static unsigned round_now;
static bool is_sooner, is_later;

/* A random number below this one. */
static uint64_t below(uint64_t end) {
    state += UINT64_C(0x9e3779b97f4a7c15);
    uint64_t it = (state ^ (state >> 30)) * UINT64_C(0xbf58476d1ce4e5b9);
    it = (it ^ (it >> 27)) * UINT64_C(0x94d049bb133111eb);
    return (uint64_t)((wide)(it ^ (it >> 31)) * end >> 64);
}

static uint64_t less(uint64_t a, uint64_t b) { return a < b ? a : b; }
static uint64_t greater(uint64_t a, uint64_t b) { return a > b ? a : b; }

/* Ends the program with what is wrong, and with the tree. */
static void fail(const struct play *play, const char *what) {
    static uint8_t text[8192];
    size_t len = 0;
    fprintf(stderr, "delays: %s, in round %u of seed %" PRIu64 ", at %" PRIu64 " ns, mtu %u\n", what, round_now, seed, play->clock, play->mtu);
    if (qtree_show(&play->device, QTREE_SHOW_COUNTERS, text, sizeof text, &len) == QTREE_DONE) {
        fwrite(text, 1, len, stderr);
    }
    exit(1);
}

static void must(const struct play *play, bool holds, const char *what) {
    if (!holds) {
        fail(play, what);
    }
}

/* A number is no more than a bound. */
static void is_within(const struct play *play, enum bound which, uint64_t number, uint64_t bound) {
    char text[160];
    met[which] += number == bound;
    if (number > bound - is_sooner) {
        snprintf(text, sizeof text, "%" PRIu64 " is past the bound by the %s, %" PRIu64, number, names[which], bound - is_sooner);
        fail(play, text);
    }
}

__attribute__((format(printf, 2, 3))) static void tc(struct play *play, const char *format, ...) {
    char line[256];
    va_list words;
    va_start(words, format);
    vsnprintf(line, sizeof line, format, words);
    va_end(words);
    must(play, qtree_run(&play->device, line, play->clock, NULL) == QTREE_DONE, line);
}

/* Where the next qdisc below goes, as tc writes it. */
static const char *place_of(const struct play *play) {
    static char text[32];
    if (play->place == QTREE_ROOT) {
        return "root";
    }
    snprintf(text, sizeof text, "parent %x:%x", play->major, play->minor);
    return text;
}

static void go_below(struct play *play, uint16_t handle) {
    play->place = QTREE_CLASS;
    play->major = handle;
    play->minor = 1;
}

/* Whether the burst has room for a longest packet and for what comes in this time and a nanosecond. */
static bool has_room(const struct play *play, uint64_t late) {
    return (wide)play->burst * BYTE >= (wide)play->mtu * BYTE + (wide)play->rate * ((wide)late + 1);
}

/* Adds a tbf at the root, whose burst has just enough room, just too little, or more than is needed. */
static void add_tbf(struct play *play) {
    play->rate = 1 + below(UINT64_C(1) << below(36));
    play->burst = play->mtu + (play->rate + BYTE - 1) / BYTE;
    switch (below(8)) {
    case 0: play->burst--; break;
    case 1: case 2: break;
    default: play->burst += below(4 * (uint64_t)play->mtu); break;
    }
    play->is_pfifo = false;
    play->limit = 1 + below(20 * (uint64_t)play->mtu);
    play->tick = (play->mtu * BYTE + play->rate - 1) / play->rate;
    tc(play, "tc qdisc add dev wan root handle 1: tbf rate %" PRIu64 "bit burst %" PRIu64 "b limit %" PRIu64 "b", play->rate, play->burst,
       play->limit);
    go_below(play, 1);
}

/* A prio whose first band takes the packets of higher priority than its level, and its second band those of just this one. */
static void add_prio(struct play *play, unsigned level) {
    char map[64] = "";
    for (unsigned prio = 0; prio < 16; prio++) {
        snprintf(map + 2 * prio, sizeof map - 2 * prio, " %u", prio > level ? 0u : 1u);
    }
    tc(play, "tc qdisc add dev wan %s handle %x: prio bands 3 priomap%s", place_of(play), 16 + level, map);
    go_below(play, (uint16_t)(16 + level));
    play->is_pfifo = true;
    play->limit = play->txqueuelen;
}

static void add_fifo(struct play *play) {
    play->is_implicit = below(3) == 0;
    if (play->is_implicit) {
        return;
    }
    play->is_pfifo = below(2) == 0;
    play->limit = 1 + below(play->is_pfifo ? 20 : 20 * (uint64_t)play->mtu);
    tc(play, "tc qdisc add dev wan %s handle f: %s limit %" PRIu64, place_of(play), play->is_pfifo ? "pfifo" : "bfifo", play->limit);
}

static void set_up(struct play *play) {
    memset(play, 0, offsetof(struct play, line));
    play->head = play->tail = 0;
    play->mtu = (uint16_t)(below(3) == 0 ? 1 + below(9000) : 1514);
    play->txqueuelen = (uint16_t)(1 + below(30));
    play->place = QTREE_ROOT;
    play->due = play->poll_at = UINT64_MAX;
    play->is_pfifo = true;
    play->limit = play->txqueuelen;
    play->tick = 1000;
    must(play, qtree_open(&play->device, &(qtree_settings){ play->txqueuelen, 0, play->mtu }) == QTREE_DONE, "no device");
    if (below(4) != 0) {
        add_tbf(play);
    }
    play->prios = (uint8_t)below(PRIOS + 1);
    for (unsigned level = 0; level < play->prios; level++) {
        add_prio(play, level);
    }
    add_fifo(play);
}

/* To a place nothing is promised, whatever the length. */
static void is_nothing(const struct play *play, uint32_t place, unsigned major, unsigned minor) {
    qtree_delay delay;
    qtree_departure departure;
    uint16_t len = (uint16_t)below(play->mtu + UINT64_C(1));
    must(play, qtree_worst(&play->device, place, (uint16_t)major, (uint16_t)minor, &delay) == QTREE_NOTHING, "qtree_worst has a promise");
    must(play, qtree_latest(&play->device, place, (uint16_t)major, (uint16_t)minor, len, &departure) == QTREE_NOTHING,
         "qtree_latest has a promise");
}

/* Asks the longest delay; whether there is one. The lateness is the greatest for which the burst has room. */
static bool is_promised(const struct play *play, qtree_delay *worst) {
    if (play->rate != 0 && !has_room(play, 0)) {
        is_nothing(play, play->place, play->major, play->minor);
        return false;
    }
    must(play, qtree_worst(&play->device, play->place, play->major, play->minor, worst) == QTREE_DONE, "qtree_worst has no promise");
    if (play->rate == 0) {
        must(play, worst->ns == UINT64_MAX && worst->late == UINT64_MAX, "qtree_worst has a time without a tbf");
    } else {
        must(play, has_room(play, worst->late) && !has_room(play, worst->late + 1), "late of qtree_worst is not the greatest");
    }
    return true;
}

/* By when a packet of this length leaves, or the last one. */
static qtree_departure latest(const struct play *play, uint16_t len, const qtree_delay *worst) {
    qtree_departure it = { 0 };
    must(play, qtree_latest(&play->device, play->place, play->major, play->minor, len, &it) == QTREE_DONE, "qtree_latest has no promise");
    must(play, it.late == worst->late && (it.at == UINT64_MAX) == (play->rate == 0), "qtree_latest and qtree_worst differ");
    return it;
}

/* Where else than in the first band nothing is promised; nor to an fq_codel below a drr, or where a tbf is below the root. */
static void ask_elsewhere(struct play *play) {
    uint64_t late = 0;
    for (unsigned level = 0; level < play->prios; level++) {
        is_nothing(play, QTREE_CLASS, 16 + level, 2);
    }
    if (play->prios == 0 || below(4) != 0) {
        return;
    }
    if (below(2) == 0) {
        tc(play, "tc qdisc add dev wan parent 10:3 handle e: tbf rate 1mbit burst 10000 limit 9000");
    } else {
        go_below(play, 14);
        tc(play, "tc qdisc del dev wan %s", play->rate == 0 ? "root" : "parent 1:1");
        tc(play, "tc qdisc add dev wan %s handle e: drr", play->rate == 0 ? "root" : "parent 1:1");
        tc(play, "tc class add dev wan parent e: classid e:1 drr quantum 1000");
        tc(play, "tc qdisc add dev wan parent e:1 handle d: fq_codel");
        bool is_done = qtree_lateness(&play->device, QTREE_CLASS, 14, 1, &late) == QTREE_DONE;
        must(play, is_done == (play->rate == 0 || has_room(play, 0)), "qtree_lateness and the burst differ");
        must(play, !is_done || (play->rate == 0 ? late == UINT64_MAX : has_room(play, late) && !has_room(play, late + 1)),
             "qtree_lateness is not the greatest");
    }
    is_nothing(play, play->place, play->major, play->minor);
    play->prios = 0;
    play->limit = 0;
}

/* How late the next poll is. */
static uint64_t lateness(const struct play *play) {
    switch (below(3)) {
    case 0: return 0;
    case 1: return play->greatest;
    default: return below(play->greatest + 1);
    }
}

/* After an event: since when a poll is due. If ready_at is ahead it is then, and otherwise since now, or since it was due before. */
static void plan(struct play *play, uint64_t now) {
    uint64_t ready, due = UINT64_MAX;
    play->clock = now;
    if (qtree_ready_at(&play->device, &ready) == QTREE_DONE) {
        due = ready > now ? ready : less(play->due, now);
    }
    if (due != play->due) {
        play->due = due;
        play->poll_at = due == UINT64_MAX ? due : due + lateness(play);
    }
}

/* No packet that the fifo kept is lost. */
static void reap(struct play *play) {
    qtree_loss loss;
    while (qtree_reap(&play->device, &loss) == QTREE_DONE) {
        must(play, loss.packet.port != FIFO || loss.cause == QTREE_LOST_OVER_LIMIT, "a packet of the fifo is lost");
    }
}

/* A packet of the fifo leaves: those before it have left, and it keeps to the bounds. */
static void leave(struct play *play, uint32_t buf, uint64_t now, uint64_t late) {
    const struct kept *kept = &play->line[play->head];
    must(play, play->head < play->tail && buf == play->head, "a packet of the fifo leaves out of turn");
    for (enum bound which = 0; which < LEAVING; which++) {
        bool is_bytes = which == WORST_BYTES || which == ASKED_BYTES;
        if (is_bytes || play->rate != 0) {
            is_within(play, which, is_bytes ? play->sent : now - late, kept->bounds[which]);
        }
    }
    must(play, play->sent == kept->bounds[ASKED_BYTES], "other bytes leave than qtree_latest answered");
    play->head++;
    compared++;
}

/* One poll. */
static bool polled(struct play *play, uint64_t now) {
    qtree_sent sent;
    if (qtree_poll_buf(&play->device, now, &sent) != QTREE_DONE) {
        return false;
    }
    must(play, play->due <= now, "a poll before ready_at returns a packet");
    play->sent += sent.len;
    if (sent.port == FIFO) {
        leave(play, sent.buf, now, now - play->due);
    }
    return true;
}

/* Polls until no packet comes. The first of these polls may come sooner, and without a tbf the last ones later. */
static void drain(struct play *play, uint64_t now) {
    uint64_t begun = greater(play->clock, play->due), most = play->rate == 0 ? 1 + below(4) : UINT64_MAX;
    if (below(8) == 0 && begun < now) {
        polled(play, begun + below(now - begun + 1));
    }
    while (most != 0 && polled(play, now)) {
        most--;
    }
    reap(play);
    play->due = play->poll_at = UINT64_MAX;
    plan(play, now);
}

/* The time at which the tbf has paid so many bytes if its bucket is full now, less what a late poll may lose; or this one, if later. */
static uint64_t filled(const struct play *play, const qtree_departure *asked, uint64_t now) {
    wide level = (wide)play->burst * BYTE - (wide)play->rate * asked->late, wanted = (wide)asked->bytes * BYTE;
    return greater(asked->at, now + (uint64_t)(wanted <= level ? 0 : (wanted - level + play->rate - 1) / play->rate));
}

/* The fifo keeps a packet: what was answered before and what is answered now agree, and both bound when it leaves. */
static void keep(struct play *play, const qtree_delay *worst, const qtree_departure *asked, uint64_t passed) {
    qtree_departure told = latest(play, 0, worst);
    struct kept *kept = &play->line[play->tail++];
    must(play, told.bytes == asked->bytes && told.bytes <= worst->bytes, "other bytes are answered after the packet came");
    must(play, passed != 0 || told.at == asked->at, "another time is answered right after the packet came");
    kept->bounds[WORST_BYTES] = play->sent + worst->bytes;
    kept->bounds[ASKED_BYTES] = play->sent + asked->bytes;
    if (play->rate == 0) {
        return;
    }
    kept->bounds[WORST_TIME] = play->clock + worst->ns;
    kept->bounds[ASKED_TIME] = asked->at + passed;
    kept->bounds[FILLED_TIME] = filled(play, asked, play->clock);
    kept->bounds[TOLD_TIME] = told.at;
    if (passed != 0) {
        is_within(play, RISES, told.at, asked->at + passed);
        is_within(play, STANDS, told.at, kept->bounds[FILLED_TIME]);
    }
}

static void arrive(struct play *play, uint16_t len, uint64_t now) {
    qtree_delay worst = { 0 };
    is_promised(play, &worst);
    qtree_departure asked = latest(play, len, &worst);
    uint64_t passed = now - play->clock;
    qtree_packet packet = { .len = len, .buf = (uint32_t)play->tail, .port = FIFO, .prio = play->prios };
    qtree_code code = qtree_arrive(&play->device, &packet, now);
    plan(play, now);
    must(play, code == QTREE_DONE || code == QTREE_LOST_OVER_LIMIT, "a packet for the fifo is lost");
    if (code == QTREE_DONE) {
        keep(play, &worst, &asked, passed);
    } else {
        reap(play);
    }
}

/* Packets for the fifo that come at once, some of them as long as there is room. */
static void burst(struct play *play, uint64_t now) {
    uint64_t kind = below(4), count = 1 + below(AT_ONCE);
    for (; count > 0; count--) {
        qtree_row row;
        must(play, qtree_stats(&play->device, play->place, play->major, play->minor, &row) == QTREE_DONE, "no fifo");
        uint64_t room = play->is_pfifo || play->limit <= row.queued.bytes ? play->mtu : play->limit - row.queued.bytes;
        uint64_t len = kind == 0 ? 1 + below(play->mtu) : kind == 1 ? 1 + below(less(play->mtu, 64)) : less(play->mtu, room);
        arrive(play, (uint16_t)len, now);
    }
}

/* Packets for the bands behind. */
static void others(struct play *play, uint64_t now) {
    for (uint64_t count = 1 + below(6); play->prios > 0 && count > 0; count--) {
        qtree_packet packet = { .len = (uint16_t)(1 + below(play->mtu)), .port = OTHERS, .prio = (uint8_t)below(play->prios),
                                .hash = (uint32_t)below(8) };
        qtree_arrive(&play->device, &packet, now);
        plan(play, now);
    }
    reap(play);
}

/* Sets another limit, which takes no packet out of the fifo, or another qdisc in a band behind. */
static void command(struct play *play, uint64_t now) {
    static const char *const kinds[] = { "fq_codel limit 20 flows 4", "bfifo limit 9000", "pfifo limit 3", "drr" };
    unsigned level = (unsigned)below(PRIOS);
    if (level >= play->prios && play->is_implicit) {
        return;
    }
    play->clock = now;
    if (level >= play->prios) {
        play->limit = 1 + below(2 * play->limit + 1);
        tc(play, "tc qdisc change dev wan handle f: %s %s limit %" PRIu64, place_of(play), play->is_pfifo ? "pfifo" : "bfifo", play->limit);
    } else if (play->has_other[level]) {
        tc(play, "tc qdisc del dev wan parent %x:2", 16 + level);
        play->has_other[level] = false;
    } else {
        tc(play, "tc qdisc add dev wan parent %x:2 handle %x: %s", 16 + level, 32 + level, kinds[below(4)]);
        play->has_other[level] = true;
    }
    reap(play);
    plan(play, now);
}

/* When the next call comes: at the time of the last one, when a poll comes, or after a pause. */
static uint64_t next_time(const struct play *play) {
    switch (below(4)) {
    case 0: return play->clock;
    case 1: return play->poll_at != UINT64_MAX ? play->poll_at : play->clock + below(play->tick);
    case 2: return play->clock + below(play->tick);
    default: return play->clock + below(play->tick * (below(8) == 0 ? 100 : 10));
    }
}

static void step(struct play *play) {
    uint64_t now = next_time(play);
    while (play->poll_at <= now) {
        drain(play, play->poll_at);
    }
    switch (below(8)) {
    case 0: case 1: others(play, now); break;
    case 2: command(play, now); break;
    case 3: /* a poll that comes too early changes nothing */
        if (now < play->due) {
            must(play, !polled(play, now), "a poll before ready_at returns a packet");
            plan(play, now);
        }
        break;
    default: burst(play, now); break;
    }
}

static void play_round(struct play *play) {
    qtree_delay worst;
    set_up(play);
    if (!is_promised(play, &worst)) {
        ask_elsewhere(play);
        qtree_close(&play->device);
        return;
    }
    ask_elsewhere(play);
    uint64_t most = play->rate == 0 ? 5 * play->tick : is_later ? 3 * worst.late + play->tick : worst.late;
    play->greatest = below(4) == 0 ? below(most + 1) : most;
    for (unsigned i = 0; i < STEPS && play->limit != 0; i++) {
        step(play);
    }
    while (play->poll_at != UINT64_MAX) {
        drain(play, play->poll_at);
    }
    must(play, play->head == play->tail, "a packet of the fifo stays");
    qtree_close(&play->device);
}

static bool read_number(const char *word, uint64_t *number) {
    char *end;
    errno = 0;
    *number = strtoull(word, &end, 10);
    return *word >= '0' && *word <= '9' && *end == 0 && errno == 0;
}

int main(int argc, char **argv) {
    static struct play play = { .device = QTREE_CLOSED };
    uint64_t rounds = ROUNDS;
    int at = 1;
    is_sooner = argc > 1 && strcmp(argv[1], "--sooner") == 0;
    is_later = argc > 1 && strcmp(argv[1], "--later") == 0;
    at += is_sooner || is_later;
    if (argc - at > 2 || (argc > at && !read_number(argv[at], &rounds)) || (argc > at + 1 && !read_number(argv[at + 1], &seed))) {
        fprintf(stderr, "usage: delays [--sooner | --later] [ROUNDS [SEED]]\n");
        return 2;
    }
    state = seed;
    for (; round_now < rounds; round_now++) {
        play_round(&play);
    }
    bool is_met = true;
    for (enum bound which = 0; which < BOUNDS; which++) {
        printf("delays: the bound by the %-36s is met exactly %7" PRIu64 " times\n", names[which], met[which]);
        is_met = is_met && (met[which] != 0 || rounds < ENOUGH_ROUNDS);
    }
    printf("delays: %" PRIu64 " packets left in %" PRIu64 " rounds, each as soon as was promised\n", compared, rounds);
    if (!is_met) {
        fprintf(stderr, "delays: a bound is never met, so that a smaller one would do, with seed %" PRIu64 "\n", seed);
    }
    return is_met && fflush(stdout) == 0 ? 0 : 1;
}
