/* A device below a netif of lwIP: the frames of two bulk flows wait in it until it is their turn, and go out by a TAP device.
 *
 *     lwip_tap TAP SECONDS <FILE      plays the lines of tc of a file, sends to port 5001 of 10.78.0.1, and accounts for every frame */
#include "qtree.h"

#include <lwip/api.h>
#include <lwip/etharp.h>
#include <lwip/tcpip.h>

#include <fcntl.h>
#include <inttypes.h>
#include <linux/if.h>
#include <linux/if_tun.h>
#include <stdio.h>
#include <stdlib.h>
#include <string.h>
#include <sys/ioctl.h>
#include <sys/random.h>
#include <sys/timerfd.h>
#include <time.h>
#include <unistd.h>

enum { CE = 3, HELD_MOST = 1 << 20, FRAME = 1514, FLOWS = 2, LINE_SIZE = 512 };

static int tap, timer;
static struct netif netif;

/* All of these are used under the stack's core lock. */
static qtree_device device = QTREE_CLOSED;
static struct pbuf **held; /* a packet's buf is the index of its pbuf */
static uint32_t *free_bufs;
static size_t held_count, free_count;
static uint64_t offered, full, sent, failed, lost;

/* Of the hash. Nobody outside knows it, and so which ports share a flow. */
static uint32_t seed;

static uint64_t now_ns(void) {
    struct timespec now;
    clock_gettime(CLOCK_MONOTONIC, &now);
    return (uint64_t)now.tv_sec * 1000000000 + (uint64_t)now.tv_nsec;
}

static void release(uint32_t buf) {
    pbuf_free(held[buf]);
    free_bufs[free_count++] = buf;
}

static bool transmit(const struct pbuf *frame) {
    uint8_t bytes[FRAME];
    uint16_t len = pbuf_copy_partial(frame, bytes, FRAME, 0);
    return write(tap, bytes, len) == frame->tot_len;
}

/* Sends the packets that may go, reaps, and sets the timer to the time of the next one; to 0, which disarms it, if none waits. Each poll
 * is an event, so none comes before the time at which a packet is due. */
static void drain(void) {
    qtree_packet packet;
    uint64_t due, next = 0;
    while (qtree_ready_at(&device, &due) == QTREE_DONE && due <= now_ns()) {
        if (qtree_poll(&device, now_ns(), &packet) != QTREE_DONE) {
            continue;
        }
        if (packet.ecn == CE) {
            qtree_mark_head((uint8_t *)held[packet.buf]->payload + SIZEOF_ETH_HDR, held[packet.buf]->len - SIZEOF_ETH_HDR);
        }
        *(transmit(held[packet.buf]) ? &sent : &failed) += 1;
        release(packet.buf);
    }
    for (qtree_loss loss; qtree_reap(&device, &loss) == QTREE_DONE; lost++) {
        release(loss.packet.buf);
    }
    qtree_ready_at(&device, &next);
    struct itimerspec at = { .it_value = { (time_t)(next / 1000000000), (long)(next % 1000000000) } };
    timerfd_settime(timer, TFD_TIMER_ABSTIME, &at, NULL);
}

/* What the netif sends by. A held pbuf has one more reference, which keeps TCP from changing its segment meanwhile. */
static err_t output(struct netif *unused, struct pbuf *frame) {
    const struct eth_hdr *head = frame->payload;
    (void)unused;
    offered++;
    if (free_count == 0) {
        full++;
        return ERR_MEM;
    }
    bool is_ip = head->type == PP_HTONS(ETHTYPE_IP) || head->type == PP_HTONS(ETHTYPE_IPV6);
    qtree_packet packet = { .buf = free_bufs[--free_count], .len = frame->tot_len };
    qtree_read_head((const uint8_t *)(head + 1), is_ip ? frame->len - SIZEOF_ETH_HDR : 0, seed, &packet);
    held[packet.buf] = frame;
    pbuf_ref(frame);
    qtree_code code = qtree_arrive(&device, &packet, now_ns());
    if (code != QTREE_DONE && !qtree_is_loss(code)) {
        full++;
        release(packet.buf);
        return ERR_MEM;
    }
    drain();
    return ERR_OK;
}

/* The stack's own timers count milliseconds, in which a link may send many frames; so a thread sleeps to the nanosecond. */
static void wake(void *unused) {
    (void)unused;
    for (uint64_t fired; read(timer, &fired, sizeof fired) == sizeof fired;) {
        LOCK_TCPIP_CORE();
        drain();
        UNLOCK_TCPIP_CORE();
    }
}

static void receive(void *unused) {
    uint8_t bytes[FRAME];
    (void)unused;
    for (ssize_t len; (len = read(tap, bytes, sizeof bytes)) > 0;) {
        struct pbuf *frame = pbuf_alloc(PBUF_RAW, (uint16_t)len, PBUF_POOL);
        if (frame != NULL && (pbuf_take(frame, bytes, (uint16_t)len) != ERR_OK || netif.input(frame, &netif) != ERR_OK)) {
            pbuf_free(frame);
        }
    }
}

static void bulk(void *unused) {
    static const char bytes[16384];
    ip_addr_t to = IPADDR4_INIT_BYTES(10, 78, 0, 1);
    struct netconn *connection = netconn_new(NETCONN_TCP);
    (void)unused;
    if (connection != NULL && netconn_connect(connection, &to, 5001) == ERR_OK) {
        while (netconn_write(connection, bytes, sizeof bytes, NETCONN_COPY) == ERR_OK) {
        }
    }
}

static err_t set_up(struct netif *it) {
    memcpy(it->hwaddr, (const uint8_t[]){ 2, 0, 0, 0, 78, 2 }, it->hwaddr_len = 6);
    it->mtu = FRAME - SIZEOF_ETH_HDR;
    it->output = etharp_output;
    it->linkoutput = output;
    it->flags = NETIF_FLAG_BROADCAST | NETIF_FLAG_ETHARP | NETIF_FLAG_LINK_UP | NETIF_FLAG_ETHERNET;
    return ERR_OK;
}

/* Makes room for as many frames as the tree can hold, and one that arrives. */
static bool make_room(void) {
    uint64_t most;
    if (qtree_most_packets(&device, &most) != QTREE_DONE || most >= HELD_MOST) {
        return false;
    }
    held_count = (size_t)most + 1;
    held = calloc(held_count, sizeof(struct pbuf *));
    free_bufs = calloc(held_count, sizeof *free_bufs);
    for (; free_bufs != NULL && free_count < held_count; free_count++) {
        free_bufs[free_count] = (uint32_t)free_count;
    }
    return held != NULL && free_bufs != NULL;
}

/* Opens the TAP device, and the qtree device with the tree that the lines set up. */
static bool open_all(const char *name) {
    char line[LINE_SIZE];
    struct ifreq wanted = { .ifr_flags = IFF_TAP | IFF_NO_PI };
    strncpy(wanted.ifr_name, name, IFNAMSIZ - 1);
    tap = open("/dev/net/tun", O_RDWR | O_CLOEXEC);
    timer = timerfd_create(CLOCK_MONOTONIC, TFD_CLOEXEC);
    bool is_right = tap >= 0 && timer >= 0 && ioctl(tap, TUNSETIFF, &wanted) == 0 &&
                    qtree_open(&device, &(qtree_settings){ .txqueuelen = 1000, .mtu = FRAME }) == QTREE_DONE;
    while (is_right && fgets(line, sizeof line, stdin) != NULL) {
        qtree_fault fault;
        is_right = qtree_command(&device, (const uint8_t *)line, strcspn(line, "\n"), now_ns(), &fault) == QTREE_DONE;
    }
    return is_right && make_room();
}

/* Each frame that the stack sent has gone, was lost, found no room or waits. */
static bool totals(void) {
    qtree_row row;
    qtree_totals(&device, &row);
    uint64_t unaccounted = offered - full - sent - failed - lost - row.queued.packets;
    printf("offered %" PRIu64 " sent %" PRIu64 " failed %" PRIu64 " full %" PRIu64 " lost %" PRIu64 " queued %" PRIu64 " unaccounted %" PRIu64 "\n",
           offered, sent, failed, full, lost, row.queued.packets, unaccounted);
    return unaccounted == 0 && row.queued.packets + free_count == held_count && row.sent.packets == sent + failed &&
           row.arrived.packets == offered - full;
}

int main(int argc, char **argv) {
    if (argc != 3 || getrandom(&seed, sizeof seed, 0) != sizeof seed || !open_all(argv[1])) {
        fprintf(stderr, "lwip_tap: the TAP device cannot be opened, a line is faulty or refused, or the limits are too large\n");
        return 2;
    }
    ip4_addr_t here = { PP_HTONL(0x0a4e0002) }, mask = { PP_HTONL(0xffffff00) }, peer = { PP_HTONL(0x0a4e0001) };
    tcpip_init(NULL, NULL);
    LOCK_TCPIP_CORE();
    netif_add(&netif, &here, &mask, &peer, NULL, set_up, tcpip_input);
    netif_set_default(&netif);
    netif_set_up(&netif);
    UNLOCK_TCPIP_CORE();
    sys_thread_new("wake", wake, NULL, 0, 0);
    sys_thread_new("receive", receive, NULL, 0, 0);
    for (int i = 0; i < FLOWS; i++) {
        sys_thread_new("bulk", bulk, NULL, 0, 0);
    }
    sleep((unsigned)strtoul(argv[2], NULL, 10));
    LOCK_TCPIP_CORE(); /* the stack does nothing more until the program ends */
    bool is_right = totals();
    fflush(stdout);
    _exit(is_right ? 0 : 1);
}
