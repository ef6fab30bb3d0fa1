/* Sends frames of port 0 through a device of qtree and out by port 1; or sends frames that it makes through several schedulers in turns.
 *
 *     l2fwd EAL.. -- FILE [COUNT [MADE [MOST]]]     until COUNT frames came and none waits, or a signal; MADE are sent to port 0 before;
 *                                                   port 1 takes MOST of a burst and then none of the next, as a ring that is full at times
 *     l2fwd EAL.. -- --bench ROUNDS FILE..          cycles a packet of a ring, of rte_sched and of devices, of which a file sets up each */
#include "qtree.h"

#include <rte_cycles.h>
#include <rte_ethdev.h>
#include <rte_ip.h>
#include <rte_malloc.h>
#include <rte_ring.h>
#include <rte_sched.h>
#include <rte_udp.h>

#include <inttypes.h>
#include <signal.h>
#include <string.h>
#include <sys/random.h>

enum { CE = 3, BURST = 32, MTU = 1518, QUEUED = 16384, LINE_SIZE = 512, CACHE = 256, DESCRIPTORS = 512 };
enum { FRAME = 1000, FLOWS = 1024, FRAMES = 4096, WAITING = 1024 };

/* What holds mbufs until it is their turn: a bare ring, DPDK's own rte_sched, or a device of qtree. */
struct scheduler {
    const char *name;
    void *state;
    uint32_t pipes;
    uint64_t lost, marked;
    void (*classify)(struct scheduler *, struct rte_mbuf *); /* writes into the mbuf what enqueue goes by; NULL for a ring */
    void (*enqueue)(struct scheduler *, struct rte_mbuf **, unsigned count, uint64_t now); /* what is lost is counted and freed */
    unsigned (*dequeue)(struct scheduler *, struct rte_mbuf **, uint64_t now);             /* BURST at most */
};

static void *wanted(void *it, const char *what) {
    if (it == NULL) {
        rte_exit(EXIT_FAILURE, "%s cannot be opened\n", what);
    }
    return it;
}

static void ring_enqueue(struct scheduler *it, struct rte_mbuf **mbufs, unsigned count, uint64_t now) {
    unsigned done = rte_ring_sp_enqueue_burst(it->state, (void **)mbufs, count, NULL);
    it->lost += count - done;
    rte_pktmbuf_free_bulk(mbufs + done, count - done);
}

static unsigned ring_dequeue(struct scheduler *it, struct rte_mbuf **mbufs, uint64_t now) {
    return rte_ring_sc_dequeue_burst(it->state, (void **)mbufs, BURST, NULL);
}

static struct scheduler ring_scheduler(void) {
    void *ring = rte_ring_create("bare", QUEUED, SOCKET_ID_ANY, RING_F_SP_ENQ | RING_F_SC_DEQ);
    return (struct scheduler){ "rte_ring", wanted(ring, "a ring"), .enqueue = ring_enqueue, .dequeue = ring_dequeue };
}

/* A pipe by the third byte of the source address, and one of its four queues by the destination port. */
static void rte_classify(struct scheduler *it, struct rte_mbuf *mbuf) {
    const struct rte_ipv4_hdr *ip = rte_pktmbuf_mtod_offset(mbuf, const struct rte_ipv4_hdr *, RTE_ETHER_HDR_LEN);
    const struct rte_udp_hdr *udp = (const struct rte_udp_hdr *)((const uint8_t *)ip + rte_ipv4_hdr_len(ip));
    uint32_t pipe = rte_be_to_cpu_32(ip->src_addr) >> 8 & (it->pipes - 1);
    rte_sched_port_pkt_write(it->state, mbuf, 0, pipe, RTE_SCHED_TRAFFIC_CLASS_BE, rte_be_to_cpu_16(udp->dst_port) & 3, RTE_COLOR_GREEN);
}

static void rte_enqueue(struct scheduler *it, struct rte_mbuf **mbufs, unsigned count, uint64_t now) {
    it->lost += count - (unsigned)rte_sched_port_enqueue(it->state, mbufs, count); /* which frees them */
}

static unsigned rte_dequeue(struct scheduler *it, struct rte_mbuf **mbufs, uint64_t now) {
    return (unsigned)rte_sched_port_dequeue(it->state, mbufs, BURST);
}

/* 1 or 16 pipes of four queues each, at a rate that nothing reaches. */
static struct scheduler rte_scheduler(uint32_t pipes) {
    const uint64_t rate = 100000000000; /* bytes a second */
    struct rte_sched_subport_profile_params profile = { .tb_rate = rate, .tb_size = 1000000, .tc_period = 10 };
    struct rte_sched_pipe_params pipe = { rate, 1000000, .tc_period = 40, .tc_ov_weight = 1, .wrr_weights = { 4, 3, 2, 1 } };
    struct rte_sched_subport_params subport = { .n_pipes_per_subport_enabled = pipes, .pipe_profiles = &pipe, .n_pipe_profiles = 1, .n_max_pipe_profiles = 1 };
    for (int i = 0; i < RTE_SCHED_TRAFFIC_CLASSES_PER_PIPE; i++) {
        profile.tc_rate[i] = pipe.tc_rate[i] = rate;
        subport.qsize[i] = 1024;
    }
    struct rte_sched_port_params port = { .name = "port", .rate = rate, .mtu = MTU, .n_subports_per_port = 1, .subport_profiles = &profile,
                                          .n_subport_profiles = 1, .n_max_subport_profiles = 1, .n_pipes_per_subport = pipes };
    struct rte_sched_port *opened = wanted(rte_sched_port_config(&port), "rte_sched");
    int code = rte_sched_subport_config(opened, 0, &subport, 0);
    for (uint32_t i = 0; code == 0 && i < pipes; i++) {
        code = rte_sched_pipe_config(opened, 0, i, 0);
    }
    const char *name = pipes == 1 ? "rte_sched, one pipe of 4 queues" : "rte_sched, 16 pipes of 4 queues";
    return (struct scheduler){ name, wanted(code == 0 ? opened : NULL, name), pipes, 0, 0, rte_classify, rte_enqueue, rte_dequeue };
}

/* The IP header after an Ethernet header without tags, and how many bytes from there on are in the mbuf: 0 if the frame is not IP. */
static uint8_t *ip_head(const struct rte_mbuf *mbuf, size_t *count) {
    struct rte_ether_hdr *head = rte_pktmbuf_mtod(mbuf, struct rte_ether_hdr *);
    bool is_ip = head->ether_type == RTE_BE16(RTE_ETHER_TYPE_IPV4) || head->ether_type == RTE_BE16(RTE_ETHER_TYPE_IPV6);
    *count = is_ip && mbuf->data_len > RTE_ETHER_HDR_LEN ? mbuf->data_len - RTE_ETHER_HDR_LEN : 0;
    return (uint8_t *)(head + 1);
}

/* Of the hash. Nobody outside knows it, and so which ports share a flow. */
static uint32_t seed;

/* The mbuf's address comes back in number, which has 64 bits. */
static void qtree_classify(struct scheduler *it, struct rte_mbuf *mbuf) {
    size_t count;
    const uint8_t *head = ip_head(mbuf, &count);
    qtree_packet *packet = rte_mbuf_to_priv(mbuf);
    *packet = (qtree_packet){ .number = (uintptr_t)mbuf, .len = (uint16_t)mbuf->pkt_len };
    qtree_read_head(head, count, seed, packet);
}

static void qtree_free_losses(struct scheduler *it) {
    qtree_loss losses[BURST];
    size_t count;
    do {
        qtree_reap_many(it->state, losses, BURST, &count);
        for (size_t i = 0; i < count; i++) {
            rte_pktmbuf_free((struct rte_mbuf *)(uintptr_t)losses[i].packet.number);
        }
        it->lost += count;
    } while (count == BURST);
}

static void qtree_enqueue(struct scheduler *it, struct rte_mbuf **mbufs, unsigned count, uint64_t now) {
    qtree_packet packets[BURST];
    uint8_t codes[BURST];
    size_t done;
    for (unsigned i = 0; i < count; i++) {
        packets[i] = *(const qtree_packet *)rte_mbuf_to_priv(mbufs[i]);
    }
    qtree_arrive_many(it->state, packets, count, codes, BURST, &done, now);
    it->lost += count - done; /* their allocations failed */
    rte_pktmbuf_free_bulk(mbufs + done, count - (unsigned)done);
    qtree_free_losses(it);
}

static unsigned qtree_dequeue(struct scheduler *it, struct rte_mbuf **mbufs, uint64_t now) {
    qtree_packet packets[BURST];
    size_t count, bytes;
    uint64_t due;
    if (qtree_ready_at(it->state, &due) != QTREE_DONE || due > now) {
        return 0; /* a poll that gives nothing is an event too */
    }
    qtree_poll_many(it->state, now, packets, BURST, &count);
    for (size_t i = 0; i < count; i++) {
        mbufs[i] = (struct rte_mbuf *)(uintptr_t)packets[i].number;
        if (unlikely(packets[i].ecn == CE)) {
            uint8_t *head = ip_head(mbufs[i], &bytes);
            qtree_mark_head(head, bytes);
            it->marked++;
        }
    }
    qtree_free_losses(it); /* CoDel drops in polls */
    return (unsigned)count;
}

static bool play(struct scheduler *it, const char *line) {
    qtree_fault fault;
    return qtree_command(it->state, (const uint8_t *)line, strcspn(line, "\n"), 0, &fault) == QTREE_DONE;
}

/* With the tree that the lines of tc of a file set up. */
static struct scheduler qtree_scheduler(const char *name) {
    char line[LINE_SIZE];
    FILE *file = wanted(fopen(name, "r"), name);
    qtree_device *device = wanted(rte_zmalloc(NULL, sizeof *device, 0), name);
    struct scheduler it = { name, device, 0, 0, 0, qtree_classify, qtree_enqueue, qtree_dequeue };
    bool is_right = qtree_open(device, &(qtree_settings){ .txqueuelen = QUEUED, .mtu = MTU }) == QTREE_DONE;
    while (is_right && fgets(line, sizeof line, file) != NULL) {
        is_right = play(&it, line);
    }
    fclose(file);
    wanted(is_right ? device : NULL, name);
    return it;
}

static struct rte_mempool *pool;

static void open_pool(uint64_t mbufs) {
    unsigned count = mbufs < UINT32_MAX ? (unsigned)mbufs : UINT32_MAX; /* which no pool can have */
    uint16_t private = RTE_ALIGN(sizeof(qtree_packet), RTE_MBUF_PRIV_ALIGN);
    pool = rte_pktmbuf_pool_create("mbufs", count, CACHE, private, RTE_MBUF_DEFAULT_BUF_SIZE, SOCKET_ID_ANY);
    wanted(pool, "a pool for all packets that the limits allow");
}

/* A pool for all that the tree can hold, what the queues of both ports and the cache of the pool may have, a burst that comes and one
 * that goes. */
static void open_pool_for(const struct scheduler *it) {
    uint64_t most;
    qtree_most_packets(it->state, &most);
    open_pool(most + 4 * DESCRIPTORS + 2 * CACHE + 2 * BURST);
}

static volatile sig_atomic_t is_stopped;
static void stop(int signal) { is_stopped = signal; }

static uint64_t now_ns(void) { return (uint64_t)((__uint128_t)rte_rdtsc() * 1000000000 / rte_get_tsc_hz()); }

/* A frame of one of 1024 flows, from 16 networks to four ports. */
static struct rte_mbuf *make(unsigned number) {
    struct rte_mbuf *mbuf = wanted(rte_pktmbuf_alloc(pool), "a frame");
    struct rte_ether_hdr *ether = memset(rte_pktmbuf_append(mbuf, FRAME), 0, FRAME);
    struct rte_ipv4_hdr *ip = (struct rte_ipv4_hdr *)(ether + 1);
    struct rte_udp_hdr *udp = (struct rte_udp_hdr *)(ip + 1);
    unsigned flow = number % FLOWS;
    ether->ether_type = RTE_BE16(RTE_ETHER_TYPE_IPV4);
    *ip = (struct rte_ipv4_hdr){ .version_ihl = 0x45, .total_length = RTE_BE16(FRAME - RTE_ETHER_HDR_LEN), .time_to_live = 64, .next_proto_id = IPPROTO_UDP };
    ip->src_addr = rte_cpu_to_be_32(0x0a000001 | flow / 4 % 16 << 8);
    ip->hdr_checksum = rte_ipv4_cksum(ip);
    udp->src_port = rte_cpu_to_be_16((uint16_t)(10000 + flow));
    udp->dst_port = rte_cpu_to_be_16((uint16_t)(5000 + flow % 4));
    return mbuf;
}

static void classify(struct scheduler *it, struct rte_mbuf **mbufs, unsigned count) {
    for (unsigned i = 0; i < count; i++) {
        rte_prefetch0(rte_pktmbuf_mtod(mbufs[i], void *));
    }
    for (unsigned i = 0; i < count; i++) {
        it->classify(it, mbufs[i]);
    }
}

static void open_port(uint16_t port) {
    const struct rte_eth_conf conf = { 0 };
    bool is_right = rte_eth_dev_configure(port, 1, 1, &conf) == 0 && rte_eth_rx_queue_setup(port, 0, DESCRIPTORS, 0, NULL, pool) == 0 &&
                    rte_eth_tx_queue_setup(port, 0, DESCRIPTORS, 0, NULL) == 0 && rte_eth_dev_start(port) == 0;
    wanted(is_right ? pool : NULL, "a port");
}

/* The most frames that port 1 takes of every other burst; all if it is 0. */
static unsigned narrow;
static uint16_t narrow_burst(uint16_t port, uint16_t queue, struct rte_mbuf **mbufs, uint16_t count, void *unused) {
    static unsigned bursts;
    return bursts++ % 2 == 0 ? (uint16_t)RTE_MIN(count, narrow) : 0;
}

/* Frames that were polled and that port 1 has not taken yet. No poll can be taken back, so these go before any other. */
struct kept {
    struct rte_mbuf *mbufs[BURST];
    unsigned count;
};

/* Returns how many frames port 1 took. While it has not taken all of a burst no other one is polled. */
static unsigned transmit(struct kept *kept, struct scheduler *it, uint64_t now) {
    kept->count = kept->count > 0 ? kept->count : it->dequeue(it, kept->mbufs, now);
    unsigned taken = rte_eth_tx_burst(1, 0, kept->mbufs, (uint16_t)kept->count);
    kept->count -= taken;
    memmove(kept->mbufs, kept->mbufs + taken, kept->count * sizeof *kept->mbufs);
    return taken;
}

/* Each frame that came has gone, or was lost; what is kept or queued at the end is lost too. */
static int forward(struct scheduler *it, uint64_t most, unsigned made) {
    struct rte_mbuf *mbufs[BURST];
    struct kept kept = { .count = 0 };
    uint64_t came = 0, gone = 0;
    qtree_row row;
    open_port(0);
    open_port(1);
    wanted(narrow == 0 || rte_eth_add_tx_callback(1, 0, narrow_burst, NULL) != NULL ? pool : NULL, "a callback of port 1");
    for (unsigned i = 0; i < made; i++) {
        mbufs[0] = make(i);
        rte_pktmbuf_free_bulk(mbufs, 1u - rte_eth_tx_burst(0, 0, mbufs, 1));
    }
    while (!is_stopped && (came < most || came > gone + it->lost)) {
        uint64_t now = now_ns();
        unsigned count = came < most ? rte_eth_rx_burst(0, 0, mbufs, (uint16_t)RTE_MIN(most - came, (uint64_t)BURST)) : 0;
        classify(it, mbufs, count);
        it->enqueue(it, mbufs, count, now);
        came += count;
        gone += transmit(&kept, it, now);
    }
    uint64_t lost = it->lost;
    rte_pktmbuf_free_bulk(kept.mbufs, kept.count);
    play(it, "tc qdisc del dev x root");
    qtree_free_losses(it);
    qtree_totals(it->state, &row);
    int64_t unaccounted = (int64_t)(came - gone - kept.count - it->lost);
    printf("came %" PRIu64 " gone %" PRIu64 " kept %u lost %" PRIu64 " queued %" PRIu64 " marked %" PRIu64 " unaccounted %" PRId64 "\n",
           came, gone, kept.count, lost, it->lost - lost, it->marked, unaccounted);
    return unaccounted != 0 || row.arrived.packets != came || row.sent.packets != gone + kept.count;
}

/* The frames go round: what a scheduler gives is what it gets later. */
static struct rte_mbuf *frames[FRAMES];
static unsigned first, last;

static void refill(void) {
    for (; last - first < FRAMES; last++) {
        frames[last % FRAMES] = make(last);
    }
}

/* So many frames arrive in bursts, behind each of which a burst is polled. Cycles for each that was given. */
static double turn(struct scheduler *it, bool is_classified, bool is_polled, unsigned count) {
    struct rte_mbuf *mbufs[BURST];
    uint64_t given = 0, begun = rte_rdtsc();
    for (unsigned done = 0; done < count && last - first >= BURST; done += BURST) {
        for (unsigned i = 0; i < BURST; i++) {
            mbufs[i] = frames[first++ % FRAMES];
        }
        classify(it, mbufs, is_classified || it->classify == NULL ? 0 : BURST);
        it->enqueue(it, mbufs, BURST, now_ns());
        for (unsigned i = 0, due = is_polled ? it->dequeue(it, mbufs, now_ns()) : 0; i < due; i++, given++) {
            frames[last++ % FRAMES] = mbufs[i];
        }
    }
    return (double)(rte_rdtsc() - begun) / (double)given;
}

/* The least cycles of the rounds, with the reading of headers and without, while frames wait; then all are dequeued again. */
static void bench(struct scheduler *it, unsigned rounds) {
    double least[2] = { 1e9, 1e9 };
    struct rte_mbuf *mbufs[BURST];
    turn(it, false, false, WAITING);
    turn(it, false, true, FRAMES);
    for (unsigned i = 0; i < 2 * rounds; i++) {
        least[i % 2] = RTE_MIN(least[i % 2], turn(it, i % 2 == 1, true, FRAMES));
    }
    for (uint64_t begun = now_ns(); last - first < FRAMES && now_ns() - begun < 1000000000;) {
        for (unsigned i = 0, due = it->dequeue(it, mbufs, now_ns()); i < due; i++) {
            frames[last++ % FRAMES] = mbufs[i];
        }
    }
    printf("%-40s %6.0f %6.0f  lost %" PRIu64 ", unaccounted %" PRId64 "\n", it->name, least[0], least[1], it->lost, (int64_t)(FRAMES - (last - first) - it->lost));
    refill();
}

int main(int argc, char **argv) {
    int used = rte_eal_init(argc, argv);
    wanted(used < 0 || argc - used < 2 ? NULL : argv, "DPDK, or a file that is not named,");
    argc -= used, argv += used;
    wanted(getrandom(&seed, sizeof seed, 0) == sizeof seed ? argv : NULL, "a random seed");
    signal(SIGINT, stop);
    signal(SIGTERM, stop);
    if (strcmp(argv[1], "--bench") != 0) {
        struct scheduler it = qtree_scheduler(argv[1]);
        narrow = argc > 4 ? (unsigned)strtoul(argv[4], NULL, 10) : 0;
        open_pool_for(&it);
        return forward(&it, argc > 2 ? strtoull(argv[2], NULL, 10) : UINT64_MAX, argc > 3 ? (unsigned)strtoul(argv[3], NULL, 10) : 0);
    }
    open_pool(4 * FRAMES); /* all frames are made here, and go round */
    refill();
    for (int i = 0; i < argc; i++) {
        struct scheduler it = i == 0 ? ring_scheduler() : i == 1 ? rte_scheduler(1) : i == 2 ? rte_scheduler(16) : qtree_scheduler(argv[i]);
        bench(&it, (unsigned)strtoul(argv[2], NULL, 10));
    }
    return EXIT_SUCCESS;
}
