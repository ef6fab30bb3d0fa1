/* A device of qtree between tinc's routing and its encryption. Packets to other nodes wait in it before they get a sequence number, so that
 * neither a drop nor another order shows in the replay window of the other side.
 *
 * In tinc.conf:
 *     QueueFile = FILE       lines of tc, played at the start, and again after SIGHUP; SIGUSR2 logs the counters
 *     QueuePaced = yes       the UDP socket sets the pace: a packet goes each time it is writable
 *     QueueRecord = EVENTS   so many events are kept, and written to queue.script beside tinc.conf when the counters are logged */
#include "system.h"

#include "conf.h"
#include "logger.h"
#include "net.h"
#include "node.h"
#include "xalloc.h"

#include "qtree.h"
#include "queue.h"

#include <inttypes.h>
#include <openssl/rand.h>
#include <poll.h>

enum {
    CE = 3,
    HEADERS = 14 + 20 + 8,          /* Ethernet, IPv4 and UDP, as a qdisc of the kernel beneath counts them */
    IPV6_MORE = 20,                 /* IPv6 has a longer header */
    WIRE_MTU = MAXSIZE + HEADERS + IPV6_MORE,
    MOST_BUFFERS = 65536,           /* 110 MB */
    CAUSES = QTREE_REFUSED_NO_PARENT /* causes of losses are below it */
};

/* A packet that waits; its number in the pool is its buf. */
struct waiting {
    const node_t *to; /* NULL where no packet waits, or its node was deleted meanwhile */
    uint16_t ip;      /* where the IP header begins; the length where there is none */
    vpn_packet_t packet;
};

static struct {
    struct waiting *packets;
    uint32_t *unused;
    uint32_t count, unused_count;
} pool;

static struct {
    uint64_t arrived, sent, orphaned, without_buffer, without_memory, marked, lost[CAUSES];
} counts;

static qtree_device device = QTREE_CLOSED;
static bool is_open, is_paced, is_sending;
static uint32_t seed;
static int watched; /* the UDP socket that is waited for */
static volatile sig_atomic_t show_is_wanted;

static uint64_t clock_ns(void) {
    struct timespec at;
    clock_gettime(CLOCK_MONOTONIC, &at);
    return (uint64_t)at.tv_sec * 1000000000 + (uint64_t)at.tv_nsec;
}

/* The pool. */

static void release(uint32_t buf) {
    pool.packets[buf].to = NULL;
    pool.unused[pool.unused_count++] = buf;
}

/* Sees to it that a qdisc's limit is what refuses a packet, never the want of a buffer, which would hit any flow: there are more buffers
 * than the tree holds, since a packet that arrives has one before a qdisc decides which one to drop. */
static bool has_buffers(const char *path) {
    uint64_t wanted;
    qtree_most_packets(&device, &wanted);
    wanted++;
    if (wanted > MOST_BUFFERS) {
        logger(LOG_ERR, "%s: its limits hold %" PRIu64 " packets together, and there are %d buffers at most", path, wanted - 1,
               MOST_BUFFERS);
        return false;
    }
    if (wanted > pool.count) {
        pool.packets = xrealloc(pool.packets, wanted * sizeof *pool.packets);
        pool.unused = xrealloc(pool.unused, wanted * sizeof *pool.unused);
        while (pool.count < wanted) {
            release(pool.count++);
        }
    }
    return true;
}

static void reap(void) {
    qtree_loss loss;
    while (qtree_reap(&device, &loss) == QTREE_DONE) {
        counts.lost[loss.cause]++;
        release(loss.packet.buf);
    }
}

/* The file. */

typedef bool line_player(const char *path, uint64_t number, const char *line);

static qtree_code command(const char *line, qtree_fault *fault) {
    qtree_code code = qtree_command(&device, (const uint8_t *)line, strlen(line), clock_ns(), fault);
    reap();
    return code;
}

static bool play(const char *path, uint64_t number, const char *line) {
    qtree_fault fault;
    uint8_t said[2048];
    size_t len;
    qtree_code code = command(line, &fault);
    if (code == QTREE_DONE) {
        return true;
    }
    if (qtree_explain((const uint8_t *)line, strlen(line), number, code, &fault, said, sizeof said, &len) == QTREE_DONE) {
        logger(LOG_ERR, "%s:\n%.*s", path, (int)len - 1, (const char *)said); /* so the mark stands under its word */
    } else {
        logger(LOG_ERR, "%s:%" PRIu64 ": %s: %s", path, number, qtree_code_name(code), line);
    }
    return false;
}

/* In a file that is read again, filters are set anew: those of this line's prio go. */
static bool drop_filters(const char *path, uint64_t number, const char *line) {
    qtree_fault fault;
    int behind = 0;
    const char *end = strstr(line, "flower");
    (void)path;
    (void)number;
    if (sscanf(line, " tc filter add%n", &behind) == 0 && behind != 0 && end != NULL) {
        char *words;
        xasprintf(&words, "tc filter del%.*s", (int)(end - line) - behind, line + behind);
        command(words, &fault); /* refused where no filter has the prio yet */
        free(words);
    }
    return true;
}

/* And an add of what is there is a change of it. */
static bool play_again(const char *path, uint64_t number, const char *line) {
    qtree_fault fault;
    char object[8], *words;
    int behind = 0;
    qtree_code code = command(line, &fault);
    if (code == QTREE_DONE) {
        return true;
    }
    bool is_there = code == QTREE_REFUSED_EXISTS || code == QTREE_REFUSED_HANDLE_TAKEN;
    if (!is_there || sscanf(line, " tc %7s add%n", object, &behind) != 1 || behind == 0) {
        return play(path, number, line); /* which is refused again, and says why */
    }
    xasprintf(&words, "tc %s change%s", object, line + behind);
    bool is_right = play(path, number, words);
    free(words);
    return is_right;
}

/* Whether each line of the file is played, comments apart. */
static bool play_file(const char *path, line_player *player) {
    FILE *file = fopen(path, "r");
    if (file == NULL) {
        logger(LOG_ERR, "QueueFile %s: %s", path, strerror(errno));
        return false;
    }
    char *line = NULL;
    size_t room = 0;
    bool is_right = true;
    for (uint64_t number = 1; getline(&line, &room, file) >= 0; number++) {
        line[strcspn(line, "\r\n")] = '\0';
        char first = line[strspn(line, " \t")];
        if (first != '\0' && first != '#') {
            is_right &= player(path, number, line);
        }
    }
    free(line);
    fclose(file);
    return is_right;
}

static bool open_device(void) {
    int events = 0;
    get_config_int(lookup_config(config_tree, "QueueRecord"), &events);
    qtree_settings settings = { .txqueuelen = 1000, .recorder = (uint32_t)events, .mtu = WIRE_MTU };
    RAND_bytes((unsigned char *)&seed, sizeof seed); /* so that no one outside can choose ports that share a flow */
    qtree_code code = qtree_open(&device, &settings);
    if (code != QTREE_DONE) {
        logger(LOG_ERR, "The queue cannot be opened with QueueRecord = %d: %s", events, qtree_code_name(code));
    }
    return code == QTREE_DONE;
}

bool queue_set_up(void) {
    char *path = NULL;
    bool again = is_open;
    if (!get_config_string(lookup_config(config_tree, "QueueFile"), &path)) {
        return true;
    }
    if (!again && !open_device()) {
        free(path);
        return false;
    }
    is_paced = false;
    get_config_bool(lookup_config(config_tree, "QueuePaced"), &is_paced);
    bool is_right = again ? play_file(path, drop_filters) && play_file(path, play_again) : play_file(path, play);
    is_right &= has_buffers(path);
    is_open = again || is_right;
    if (is_open) {
        logger(LOG_NOTICE, "Queue %s %s%s: mtu %d, %" PRIu32 " buffers", again ? "changed by" : "set up by", path,
               is_right ? "" : ", with errors", WIRE_MTU, pool.count);
    } else {
        qtree_close(&device);
    }
    free(path);
    return is_open;
}

/* Counters. */

void queue_show_soon(void) {
    show_is_wanted = 1;
}

static void write_script(void) {
    uint64_t events;
    size_t recorded, len;
    if (qtree_events(&device, &events, &recorded) != QTREE_DONE || recorded == 0) {
        return;
    }
    if (recorded < events) {
        logger(LOG_WARNING, "Queue: of %" PRIu64 " events the first %zu are kept", events, recorded);
    }
    char *path;
    xasprintf(&path, "%s/queue.script", confbase);
    FILE *file = fopen(path, "w");
    qtree_recorded_script(&device, NULL, 0, &len);
    uint8_t *text = xmalloc(len + 1);
    bool is_written = file != NULL && qtree_recorded_script(&device, text, len, &len) == QTREE_DONE && fwrite(text, 1, len, file) == len;
    if ((file != NULL && fclose(file) != 0) || !is_written) {
        logger(LOG_ERR, "%s cannot be written: %s", path, strerror(errno));
    }
    free(text);
    free(path);
}

/* Logs the counters of the tree, and what became of each packet. */
static void show(void) {
    size_t len;
    qtree_row row;
    if (!is_open || qtree_totals(&device, &row) != QTREE_DONE) {
        return;
    }
    qtree_show(&device, QTREE_SHOW_COUNTERS, NULL, 0, &len);
    uint8_t *text = xmalloc(len + 1);
    if (qtree_show(&device, QTREE_SHOW_COUNTERS, text, len, &len) == QTREE_DONE) {
        logger(LOG_NOTICE, "Queue:\n%.*s", (int)len - 1, (const char *)text);
    }
    free(text);
    uint64_t unaccounted = pool.count - pool.unused_count - row.queued.packets;
    char lost[320] = "";
    for (uint32_t cause = 0, at = 0; cause < CAUSES; cause++) {
        if (counts.lost[cause] != 0) {
            at += (uint32_t)snprintf(lost + at, sizeof lost - at, " %s %" PRIu64, qtree_code_name(cause), counts.lost[cause]);
        }
    }
    logger(LOG_NOTICE, "Queue totals: arrived %" PRIu64 " sent %" PRIu64 "%s orphaned %" PRIu64 " without_buffer %" PRIu64
           " without_memory %" PRIu64 " queued %" PRIu64 " marked %" PRIu64 " buffers %" PRIu32 " unaccounted %" PRIu64,
           counts.arrived, counts.sent, lost, counts.orphaned, counts.without_buffer, counts.without_memory, row.queued.packets,
           counts.marked, pool.count, unaccounted);
    write_script();
}

/* Packets. */

/* The bytes that a packet takes on the link, unless it is compressed. */
static uint16_t wire_length(const node_t *to, const vpn_packet_t *packet) {
    const node_t *via = packet->priority == -1 || to->via == myself ? to->nexthop : to->via;
    int len = packet->len + (int)sizeof packet->seqno;
    int block = via->outcipher != NULL ? EVP_CIPHER_block_size(via->outcipher) : 1;
    if (block > 1) {
        len += block - len % block; /* padding, a byte at least */
    }
    len += via->outdigest != NULL ? via->outmaclength : 0;
    return (uint16_t)(len + HEADERS + (via->address.sa.sa_family == AF_INET6 ? IPV6_MORE : 0));
}

bool queue_takes(const node_t *to, const vpn_packet_t *packet) {
    if (!is_open || is_sending) {
        return false;
    }
    counts.arrived++;
    if (pool.unused_count == 0) {
        counts.without_buffer++;
        return true;
    }
    uint32_t buf = pool.unused[--pool.unused_count];
    struct waiting *waiting = &pool.packets[buf];
    size_t ip = qtree_ip_at(packet->data, packet->len);
    waiting->to = to;
    waiting->ip = ip != 0 ? (uint16_t)ip : packet->len;
    waiting->packet.len = packet->len;
    waiting->packet.priority = packet->priority;
    memcpy(waiting->packet.data, packet->data, packet->len);
    qtree_code code = qtree_arrive_frame_seeded(&device, waiting->packet.data + waiting->ip, (size_t)(packet->len - waiting->ip),
                                                wire_length(to, packet), buf, seed, clock_ns());
    if (code == QTREE_MEMORY || code == QTREE_OUT_OF_RANGE) {
        counts.without_memory++;
        release(buf);
    }
    reap(); /* a packet that is lost has its buffer released here */
    return true;
}

/* Sends on a packet that was polled. */
static void send_on(const qtree_sent *sent) {
    struct waiting *waiting = &pool.packets[sent->buf];
    if (sent->ecn == CE && qtree_mark_head(waiting->packet.data + waiting->ip, (size_t)(waiting->packet.len - waiting->ip))) {
        counts.marked++;
    }
    if (waiting->to != NULL) {
        is_sending = true;
        send_packet(waiting->to, &waiting->packet);
        is_sending = false;
        counts.sent++;
    } else {
        counts.orphaned++;
    }
    release(sent->buf);
}

/* Whether a poll may give a packet now. Others are not made: each is an event more for the device. */
static bool is_due(void) {
    uint64_t due;
    return qtree_ready_at(&device, &due) == QTREE_DONE && due <= clock_ns();
}

/* Whether each UDP socket takes a packet now, since which of them one takes is not known before it is polled, and none can be put back. If
 * not, the first that does not is watched. */
static bool sockets_take(void) {
    for (watched = 0; watched < listen_sockets; watched++) {
        struct pollfd socket = { listen_socket[watched].udp, POLLOUT, 0 };
        if (poll(&socket, 1, 0) == 0) {
            return false;
        }
    }
    watched = 0;
    return true;
}

void queue_before_sleep(struct timespec *longest, fd_set *writable) {
    uint64_t due;
    if (!is_open || qtree_ready_at(&device, &due) != QTREE_DONE) {
        return;
    }
    uint64_t at = clock_ns();
    uint64_t wait = due > at ? due - at : 0;
    if (wait == 0 && is_paced) {
        FD_SET(listen_socket[watched].udp, writable);
    } else if (wait / 1000000000 < (uint64_t)longest->tv_sec) {
        longest->tv_sec = (time_t)(wait / 1000000000);
        longest->tv_nsec = (long)(wait % 1000000000);
    }
}

void queue_run(void) {
    qtree_sent sent;
    if (show_is_wanted) {
        show_is_wanted = 0;
        show();
    }
    while (is_open && is_due() && (!is_paced || sockets_take())) {
        if (qtree_poll_buf(&device, clock_ns(), &sent) == QTREE_DONE) {
            send_on(&sent);
        }
        if (is_paced) {
            break; /* what arrives meanwhile may go before the next one */
        }
    }
    if (is_open) {
        reap();
    }
}

void queue_forget(const node_t *node) {
    for (uint32_t buf = 0; is_open && buf < pool.count; buf++) {
        if (pool.packets[buf].to == node) {
            pool.packets[buf].to = NULL;
        }
    }
}

void queue_close(void) {
    show();
    qtree_close(&device);
    is_open = false;
    free(pool.packets);
    free(pool.unused);
}
