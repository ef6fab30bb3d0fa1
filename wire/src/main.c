/* qtree-wire: a wire between two network cards, with a device of qtree for each direction. */
#include "answers.h"
#include "burst.h"
#include "card.h"
#include "control.h"
#include "line.h"
#include "notify.h"
#include "options.h"
#include "setup.h"
#include "top.h"

#include <errno.h>
#include <poll.h>
#include <pthread.h>
#include <signal.h>
#include <stdlib.h>
#include <string.h>
#include <sys/eventfd.h>
#include <sys/random.h>
#include <sys/signalfd.h>
#include <unistd.h>

enum { LEAST_SLOTS = 16384, MOST_SLOTS = 131072, LINK_HEAD = 22, SLOT = 2048, XDP_MOST_SLOT = 4096, RING = 4096, LOOK = 1000 };

static struct wire wire;
static struct options options;

/* Both devices take the longest frame of either card, with two tags. */
static bool read_cards(void) {
    struct card cards[2];
    const char *names[2] = { options.left, options.right };
    bool is_xdp = options.io != &io_packet;
    for (int i = 0; i < 2; i++) {
        if (!card_read(&cards[i], names[i])) {
            fprintf(stderr, "qtree-wire: %s: %s; `ip link` lists the cards\n", names[i], strerror(errno));
            return false;
        }
        uint32_t longest = cards[i].mtu + LINK_HEAD + options.overhead;
        if (longest > UINT16_MAX || (is_xdp && cards[i].mtu + LINK_HEAD + 256 > XDP_MOST_SLOT)) {
            fprintf(stderr, "qtree-wire: %s: its mtu of %u is too large%s\n", names[i], cards[i].mtu,
                    is_xdp ? " for xdp: take -i packet" : "");
            return false;
        }
        wire.mtu = longest > wire.mtu ? (uint16_t)longest : wire.mtu;
        wire.queues = cards[i].queues > wire.queues ? cards[i].queues : wire.queues;
        wire.cards[i] = if_nametoindex(names[i]);
    }
    return true;
}

/* Rings are shorter where there are many. */
static uint32_t ring_wanted(void) { return wire.queues == 1 ? RING : wire.queues <= 4 ? RING / 2 : RING / 4; }

/* Those for the tree, and those that the rings of each queue and the one that sends have. */
static size_t slots_wanted(void) {
    uint64_t needs = setup_needs(&wire), queues = wire.queues < MOST_INPUTS ? wire.queues : MOST_INPUTS;
    needs = needs < LEAST_SLOTS ? LEAST_SLOTS : needs > MOST_SLOTS ? MOST_SLOTS : needs;
    needs += options.io == &io_packet ? 0 : ring_wanted() * (queues + 1);
    return options.slots > 0 ? options.slots : (size_t)needs;
}

static bool open_direction(struct direction *way, const char *from, const char *to) {
    memcpy(way->from, from, strlen(from));
    memcpy(way->to, to, strlen(to));
    way->io = options.io;
    way->overhead = options.overhead;
    way->nap = options.nap;
    way->ring = ring_wanted();
    way->bell = eventfd(0, EFD_NONBLOCK | EFD_CLOEXEC);
    bool is_open = way->bell >= 0 && getrandom(&way->seed, sizeof way->seed, 0) == sizeof way->seed &&
                   qtree_open(&way->device, &(qtree_settings){ .txqueuelen = 1000, .mtu = wire.mtu }) == QTREE_DONE;
    lateness_begin(&way->lateness, &way->device);
    if (!is_open) {
        fprintf(stderr, "qtree-wire: a direction cannot be opened: %s\n", strerror(errno));
    }
    return is_open;
}

/* Only once the file is known to be right. */
static bool prepare_cards(void) {
    bool is_xdp = options.io != &io_packet;
    return card_claim(options.left) && card_claim(options.right) && card_prepare(options.left, is_xdp) &&
           card_prepare(options.right, is_xdp);
}

static bool open_all(void) {
    struct direction *both = wire.both;
    if (!read_cards() || !open_direction(&both[0], options.left, options.right) || !open_direction(&both[1], options.right, options.left)) {
        return false;
    }
    size_t slots = slots_wanted(), slot = SLOT;
    while (slot < (size_t)wire.mtu + HEADROOM || (options.io != &io_packet && slot < (size_t)wire.mtu + 256)) {
        slot *= 2;
    }
    for (int i = 0; i < 2; i++) {
        if (!pool_open(&both[i].pool, slots, slot, NULL)) {
            fprintf(stderr, "qtree-wire: %zu slots: %s\n", slots, strerror(errno));
            return false;
        }
    }
    return setup_load(&wire, false, stderr) && prepare_cards();
}

static void start(struct direction *way, pthread_t *thread) {
    pthread_attr_t how;
    pthread_attr_init(&how);
    if (options.priority > 0) {
        pthread_attr_setinheritsched(&how, PTHREAD_EXPLICIT_SCHED);
        pthread_attr_setschedpolicy(&how, SCHED_FIFO);
        pthread_attr_setschedparam(&how, &(struct sched_param){ .sched_priority = options.priority });
    }
    wire.is_real_time = options.priority > 0 && pthread_create(thread, &how, direction_run, way) == 0;
    if (!wire.is_real_time && pthread_create(thread, NULL, direction_run, way) != 0) {
        fprintf(stderr, "qtree-wire: no thread: %s\n", strerror(errno));
        exit(1);
    }
    pthread_attr_destroy(&how);
}

static void nothing(struct direction *way, void *with) { (void)way, (void)with; }

/* Both threads have to answer before systemd gets its sign of life. */
static void beat(void) {
    direction_ask(&wire.both[0], nothing, NULL);
    direction_ask(&wire.both[1], nothing, NULL);
    notify("WATCHDOG=1");
}

static bool goes_on_after(int signals) {
    struct signalfd_siginfo it;
    if (read(signals, &it, sizeof it) != sizeof it) {
        return true;
    }
    if (it.ssi_signo == SIGUSR1) {
        answer_counts(&wire, stderr);
    } else if (it.ssi_signo == SIGHUP) {
        setup_load(&wire, true, stderr);
    }
    return it.ssi_signo == SIGUSR1 || it.ssi_signo == SIGHUP;
}

/* A card that was taken out, or comes back as another one. */
static bool is_card_gone(void) {
    const char *names[2] = { options.left, options.right };
    for (int i = 0; i < 2; i++) {
        if (if_nametoindex(names[i]) != wire.cards[i]) {
            fprintf(stderr, "qtree-wire: the card %s is gone\n", names[i]);
            return true;
        }
    }
    return false;
}

/* Whether the program is to end well. */
static bool serve(int signals, int listener) {
    struct pollfd watched[] = { { signals, POLLIN, 0 }, { listener, POLLIN, 0 } };
    int period = notify_period();
    for (bool goes_on = true; goes_on;) {
        int count = poll(watched, 2, period > 0 && period < LOOK ? period : LOOK);
        if (is_card_gone()) {
            return false;
        }
        if (period > 0) {
            beat();
        }
        if (count > 0 && watched[0].revents != 0) {
            goes_on = goes_on_after(signals);
        }
        if (count > 0 && watched[1].revents != 0) {
            control_answer(&wire, listener);
        }
    }
    return true;
}

static bool run(int signals, int listener) {
    pthread_t threads[2];
    for (int i = 0; i < 2; i++) {
        start(&wire.both[i], &threads[i]);
    }
    if (options.priority > 0 && !wire.is_real_time) {
        fprintf(stderr, "qtree-wire: real-time priority is not permitted, so polls may be late\n");
    }
    fprintf(stderr, "qtree-wire: %s and %s are joined by %s\n", options.left, options.right, options.io->name);
    notify("READY=1\nSTATUS=joined");
    bool is_well = serve(signals, listener);
    notify("STOPPING=1");
    for (int i = 0; i < 2; i++) {
        wire.both[i].is_over = true;
        eventfd_write(wire.both[i].bell, 1);
        pthread_join(threads[i], NULL);
    }
    answer_last_counts(&wire, stderr);
    return is_well;
}

static void close_all(void) {
    for (int i = 0; i < 2; i++) {
        qtree_close(&wire.both[i].device);
        close(wire.both[i].bell);
    }
}

static int join(int argc, char **argv) {
    sigset_t set;
    if (!options_read(&options, argc, argv)) {
        return 2;
    }
    wire.file = options.file;
    wire.name = options.name;
    sigemptyset(&set);
    sigaddset(&set, SIGUSR1), sigaddset(&set, SIGHUP), sigaddset(&set, SIGTERM), sigaddset(&set, SIGINT);
    sigprocmask(SIG_BLOCK, &set, NULL);
    signal(SIGPIPE, SIG_IGN);
    int signals = signalfd(-1, &set, SFD_CLOEXEC), listener = -1, status = 1;
    if (open_all()) {
        listener = control_listen(options.name);
        if (listener >= 0 && options.io->open(wire.both)) {
            status = run(signals, listener) ? 0 : 1;
        }
        if (listener >= 0) {
            options.io->close(wire.both, options.keeps_passing && status == 0);
        }
        control_close(options.name, listener);
    }
    close_all();
    return status;
}

static bool is_question(const char *word) {
    static const char *const words[] = { "show", "counts", "promise", "metrics", "status", "reload" };
    for (size_t i = 0; i < sizeof words / sizeof words[0]; i++) {
        if (strcmp(word, words[i]) == 0) {
            return true;
        }
    }
    return false;
}

int main(int argc, char **argv) {
    const char *first = argc > 1 ? argv[1] : "";
    if (strcmp(first, "--help") == 0 || strcmp(first, "-h") == 0) {
        options_help(stdout);
        return 0;
    }
    if (strcmp(first, "--check") == 0 && argc == 3) {
        return setup_check(argv[2], stdout) ? 0 : 1;
    }
    if (strcmp(first, "--burst") == 0 && argc == 2) {
        burst_table(stdout);
        return 0;
    }
    if (strcmp(first, "--new") == 0 && argc == 7) {
        return line_new("/etc/qtree-wire", argv + 2);
    }
    if (strcmp(first, "top") == 0 && (argc == 3 || argc == 4)) {
        return top_run(argv[2], argc == 4 ? strtol(argv[3], NULL, 10) : 0);
    }
    if (is_question(first) && argc == 3) {
        return control_ask(argv[2], first);
    }
    return join(argc, argv);
}
