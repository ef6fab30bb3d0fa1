/* A thread with a device, which sleeps until a packet may go or a sender has brought one, and senders that sleep while their ring is full.
 * docs/EMBEDDING.md shows parts of this program. */
#define _GNU_SOURCE
#include "check.h"
#include "qtree.h"

#include <poll.h>
#include <pthread.h>
#include <stdatomic.h>
#include <string.h>
#include <sys/eventfd.h>
#include <sys/timerfd.h>
#include <time.h>

enum { SENDERS = 2, BURSTS = 25, BURST = 20, PLACES = 16 };

/* Wakes a thread that sleeps in poll or epoll. */
struct bell {
    int fd; /* an eventfd, which is ready to be read once it has rung */
    atomic_bool is_listened_to;
};

/* A thread calls this before it sleeps, and then checks once more for packets. The check finds packets that were brought before this
 * call. For packets that are brought later, the bell rings. Both sides exchange the flag atomically, so that at least one of them sees
 * what the other did. */
static void bell_listen(struct bell *bell) { atomic_exchange(&bell->is_listened_to, true); }

/* A thread calls this after it brought packets. bell_ring makes a system call only if the other thread sleeps, or is about to. */
static void bell_ring(struct bell *bell) {
    if (atomic_exchange(&bell->is_listened_to, false)) {
        eventfd_write(bell->fd, 1);
    }
}

/* A thread calls this while it is awake, so that the bell does not ring. If another thread is already in bell_ring, its write to the
 * eventfd may come after the read below. In this case the awake thread's next sleep ends immediately, perhaps with nothing to do. */
static void bell_hush(struct bell *bell) {
    eventfd_t count;
    atomic_exchange(&bell->is_listened_to, false);
    eventfd_read(bell->fd, &count);
}

struct sender {
    qtree_port port;
    qtree_outlet outlet; /* the drain's */
    struct bell room;    /* rings once its ring has room */
    pthread_t thread;
};

static struct sender senders[SENDERS];
static struct bell arrivals; /* rings once a ring has a packet, or a sender has ended */
static atomic_int open_senders = SENDERS;

static uint64_t clock_ns(clockid_t clock) {
    struct timespec now;
    clock_gettime(clock, &now);
    return (uint64_t)now.tv_sec * 1000000000 + (uint64_t)now.tv_nsec;
}

/* Offers a packet, and waits for room while the ring is full. */
static void bring(struct sender *sender, const qtree_packet *packet) {
    struct pollfd room = { .fd = sender->room.fd, .events = POLLIN };
    while (qtree_offer(&sender->port, packet) == QTREE_FULL) {
        bell_ring(&arrivals);
        bell_listen(&sender->room);
        if (qtree_offer(&sender->port, packet) == QTREE_DONE) {
            return;
        }
        poll(&room, 1, -1);
        bell_hush(&sender->room);
    }
}

static void *send_all(void *its) {
    struct sender *sender = its;
    for (int burst = 0; burst < BURSTS; burst++) {
        for (uint32_t buf = 0; buf < BURST; buf++) {
            bring(sender, &(qtree_packet){ .len = 1000, .buf = buf });
        }
        bell_ring(&arrivals);
        nanosleep(&(struct timespec){ .tv_nsec = 2000000 }, NULL);
    }
    atomic_fetch_sub(&open_senders, 1);
    bell_ring(&arrivals);
    return NULL;
}

/* Takes packets in, polls for what is due and reaps, and returns whether there was something to do. *again is when a packet may go next,
 * UINT64_MAX if never. If qtree_take_in takes nothing, the ring was empty. */
static bool turn(qtree_device *device, uint64_t *again) {
    uint64_t now = clock_ns(CLOCK_MONOTONIC);
    bool is_busy = false;
    for (int i = 0; i < SENDERS; i++) {
        size_t taken;
        CHECK(qtree_take_in(device, &senders[i].outlet, now, 32, &taken) == QTREE_DONE);
        if (taken > 0) {
            bell_ring(&senders[i].room);
            is_busy = true;
        }
    }
    qtree_sent sent[BURST];
    qtree_lost lost[BURST];
    qtree_turned turned;
    CHECK(qtree_turn(device, now, sent, BURST, lost, BURST, &turned) == QTREE_DONE);
    *again = turned.again;
    /* Here the program transmits each sent[i].buf of the sender sent[i].port, and frees each lost[i].buf of the sender lost[i].port. */
    return is_busy || turned.sent > 0 || turned.lost > 0;
}

/* Sleeps until a sender rings or until `due`, in nanoseconds; a time of 0 disarms the timer, and only a sender ends the sleep. */
static void sleep_until(int timer, uint64_t due) {
    struct itimerspec at = { .it_value = { (time_t)(due / 1000000000), (long)(due % 1000000000) } };
    timerfd_settime(timer, TFD_TIMER_ABSTIME, &at, NULL);
    struct pollfd either[] = { { arrivals.fd, POLLIN, 0 }, { timer, POLLIN, 0 } };
    poll(either, 2, -1);
}

/* Calls turn, and sleeps when there is nothing to do, until all senders have ended and nothing is left. Returns how many times it slept. */
static uint64_t drain(qtree_device *device, int timer) {
    for (uint64_t sleeps = 0, again;;) {
        do {
            bell_hush(&arrivals);
            while (turn(device, &again)) {
            }
            bell_listen(&arrivals);
        } while (turn(device, &again));
        if (again < UINT64_MAX || atomic_load(&open_senders) > 0) {
            sleep_until(timer, again < UINT64_MAX ? again : 0);
            sleeps++;
        } else if (!turn(device, &again)) { /* a sender may have brought a packet just before it ended */
            return sleeps;
        }
    }
}

int main(void) {
    static const char line[] = "tc qdisc add dev wan root handle 1: tbf rate 80mbit burst 20000 limit 1mb";
    qtree_device device = QTREE_CLOSED;
    qtree_fault fault;
    CHECK(qtree_open(&device, &(qtree_settings){ .txqueuelen = 1000, .mtu = 1514 }) == QTREE_DONE);
    CHECK(qtree_command(&device, (const uint8_t *)line, strlen(line), 0, &fault) == QTREE_DONE);
    int timer = timerfd_create(CLOCK_MONOTONIC, TFD_CLOEXEC);
    arrivals.fd = eventfd(0, EFD_CLOEXEC | EFD_NONBLOCK);
    CHECK(timer >= 0 && arrivals.fd >= 0);
    for (uint32_t i = 0; i < SENDERS; i++) {
        senders[i].room.fd = eventfd(0, EFD_CLOEXEC | EFD_NONBLOCK);
        CHECK(senders[i].room.fd >= 0);
        CHECK(qtree_ring_open(&senders[i].port, &senders[i].outlet, i, PLACES) == QTREE_DONE);
        CHECK(pthread_create(&senders[i].thread, NULL, send_all, &senders[i]) == 0);
    }
    uint64_t begun = clock_ns(CLOCK_MONOTONIC), processor = clock_ns(CLOCK_THREAD_CPUTIME_ID);
    uint64_t sleeps = drain(&device, timer);
    processor = clock_ns(CLOCK_THREAD_CPUTIME_ID) - processor;
    CHECK(sleeps > 0 && processor < (clock_ns(CLOCK_MONOTONIC) - begun) / 2);
    qtree_row row;
    CHECK(qtree_totals(&device, &row) == QTREE_DONE && row.sent.packets == row.arrived.packets);
    for (int i = 0; i < SENDERS; i++) {
        pthread_join(senders[i].thread, NULL);
        qtree_port_close(&senders[i].port);
        qtree_outlet_close(&senders[i].outlet);
    }
    qtree_close(&device);
    printf("%d of %d sent, and slept meanwhile\n", (int)row.sent.packets, SENDERS * BURSTS * BURST);
    return 0;
}
