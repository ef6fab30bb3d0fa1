/* Joins two TUN devices, with a scheduler for each direction.
 *
 *     tunnel DEVICE DEVICE FILE
 *
 * FILE has lines of tc, which set up both directions alike. A line that is faulty or refused ends the program before it opens a TUN
 * device. SIGUSR1 prints what `tc -s qdisc show` does, SIGHUP plays the lines of the file that are new or changed, and SIGTERM and
 * SIGINT stop, with a count of what became of every frame. The status is 0 where each is accounted for. */

#include "qtree.h"

#include <errno.h>
#include <fcntl.h>
#include <inttypes.h>
#include <linux/if.h>
#include <linux/if_tun.h>
#include <poll.h>
#include <signal.h>
#include <stdio.h>
#include <stdlib.h>
#include <string.h>
#include <sys/ioctl.h>
#include <sys/random.h>
#include <sys/signalfd.h>
#include <sys/timerfd.h>
#include <time.h>
#include <unistd.h>

enum { CE = 3, MTU = 1500, BUFFERS_MOST = 1 << 20, BATCH = 64, LINES = 256, LINE_SIZE = 512 };

/* The bytes of a frame; one that fills them is longer than the MTU, and lost. */
struct frame {
    uint16_t len;
    uint8_t bytes[MTU + 1];
};

/* One direction: frames that are read from a TUN device are queued, and written to the other. */
struct way {
    const char *from_name, *to_name;
    int from, to;
    qtree_device device;
    struct frame *frames; /* a packet's buf is its index */
    struct frame spare;   /* what a frame is read into that finds no buffer */
    uint32_t *free;
    size_t buffers, free_count;
    uint64_t arrived, written, unwritten, refused, lost[QTREE_LOST_MOST + 1];
};

struct tunnel {
    struct way ways[2];
    const char *file;
    char lines[LINES][LINE_SIZE]; /* of the file, as they were played */
    int timer, signals;
};

/* Of the hash. Nobody outside knows it, and so which ports share a flow. */
static uint32_t seed;

static uint64_t now_ns(void) {
    struct timespec now;
    clock_gettime(CLOCK_MONOTONIC, &now);
    return (uint64_t)now.tv_sec * 1000000000 + (uint64_t)now.tv_nsec;
}

static bool way_open(struct way *way, const char *from_name, const char *to_name) {
    way->from_name = from_name;
    way->to_name = to_name;
    return qtree_open(&way->device, &(qtree_settings){ .txqueuelen = 1000, .mtu = MTU }) == QTREE_DONE;
}

static void way_close(struct way *way) {
    qtree_close(&way->device);
    free(way->frames);
    free(way->free);
}

/* Gets a buffer for each packet that the tree can hold, and one for the frame that is read; false if there cannot be as many. Each loss
 * is reaped before the next frame is read. Where a limit was lowered the buffers stay, since as many packets may still be queued. */
static bool way_grow(struct way *way) {
    uint64_t most;
    qtree_most_packets(&way->device, &most);
    if (most < way->buffers) {
        return true;
    }
    if (most >= BUFFERS_MOST) {
        fprintf(stderr, "tunnel: the tree can hold %" PRIu64 " packets, and there can be %d buffers\n", most, BUFFERS_MOST);
        return false;
    }
    struct frame *frames = realloc(way->frames, (most + 1) * sizeof *frames);
    way->frames = frames == NULL ? way->frames : frames;
    uint32_t *free_bufs = realloc(way->free, (most + 1) * sizeof *free_bufs);
    way->free = free_bufs == NULL ? way->free : free_bufs;
    if (frames == NULL || free_bufs == NULL) {
        fprintf(stderr, "tunnel: the allocation of %" PRIu64 " buffers failed\n", most + 1);
        return false;
    }
    while (way->buffers <= most) {
        way->free[way->free_count++] = (uint32_t)way->buffers++;
    }
    return true;
}

/* Each loss gives its buffer back, and is counted by its cause. */
static void take_losses(struct way *way) {
    qtree_loss loss;
    while (qtree_reap(&way->device, &loss) == QTREE_DONE) {
        way->lost[loss.cause]++;
        way->free[way->free_count++] = loss.packet.buf;
    }
}

/* Whether a read or write failed because the device is gone, and not because it has nothing, or is full or down. */
static bool is_gone(const char *name) {
    if (errno == EBADFD) {
        fprintf(stderr, "tunnel: the TUN device %s is gone\n", name);
    }
    return errno == EBADFD;
}

/* Reads some frames; false where the device is gone. */
static bool way_read(struct way *way) {
    for (int i = 0; i < BATCH; i++) {
        bool has_buffer = way->free_count > 0;
        uint32_t buf = has_buffer ? way->free[way->free_count - 1] : 0;
        struct frame *frame = has_buffer ? &way->frames[buf] : &way->spare;
        ssize_t len = read(way->from, frame->bytes, sizeof frame->bytes);
        if (len <= 0) {
            return len == 0 || !is_gone(way->from_name);
        }
        frame->len = (uint16_t)len;
        qtree_packet packet = { .number = ++way->arrived, .buf = buf, .len = frame->len };
        qtree_read_head(frame->bytes, frame->len, seed, &packet);
        qtree_code code = has_buffer ? qtree_arrive(&way->device, &packet, now_ns()) : QTREE_MEMORY;
        if (code == QTREE_DONE || qtree_is_loss(code)) {
            way->free_count--;
            take_losses(way);
        } else {
            way->refused++;
        }
    }
    return true;
}

/* When a packet may go; UINT64_MAX if none waits. */
static uint64_t way_due(const struct way *way) {
    uint64_t due;
    return qtree_ready_at(&way->device, &due) == QTREE_DONE ? due : UINT64_MAX;
}

/* Writes the frame of a packet, and gives its buffer back; false if the TUN device is gone. */
static bool way_send(struct way *way, const qtree_packet *packet) {
    struct frame *frame = &way->frames[packet->buf];
    if (packet->ecn == CE) {
        qtree_mark_head(frame->bytes, frame->len);
    }
    bool is_written = write(way->to, frame->bytes, frame->len) == frame->len;
    way->written += is_written;
    way->unwritten += !is_written;
    way->free[way->free_count++] = packet->buf;
    return is_written || !is_gone(way->to_name);
}

/* Writes the frames that may go, and lowers next to the time of the one after them; false if the TUN device is gone. It polls only when
 * a packet is due: each poll is an event, and one that comes too early gives nothing. */
static bool way_write(struct way *way, uint64_t *next) {
    uint64_t due;
    while ((due = way_due(way)) <= now_ns()) {
        qtree_packet packet;
        if (qtree_poll(&way->device, now_ns(), &packet) == QTREE_DONE && !way_send(way, &packet)) {
            return false;
        }
    }
    take_losses(way);
    *next = due < *next ? due : *next;
    return true;
}

static void way_show(struct way *way) {
    size_t room;
    qtree_show(&way->device, QTREE_SHOW_COUNTERS, NULL, 0, &room);
    uint8_t *text = malloc(room + 1);
    if (text != NULL && qtree_show(&way->device, QTREE_SHOW_COUNTERS, text, room, &room) == QTREE_DONE) {
        printf("%s to %s\n%.*s", way->from_name, way->to_name, (int)room, (const char *)text);
    }
    free(text);
}

/* Prints what became of all frames; whether none is unaccounted for. */
static bool way_totals(struct way *way) {
    qtree_row row;
    qtree_totals(&way->device, &row);
    uint64_t unaccounted = way->arrived - way->refused - way->written - way->unwritten - row.queued.packets;
    printf("%s to %s: arrived %" PRIu64 " sent %" PRIu64, way->from_name, way->to_name, way->arrived, way->written);
    for (uint32_t cause = QTREE_LOST_TOO_LONG; cause <= QTREE_LOST_MOST; cause++) {
        unaccounted -= way->lost[cause];
        if (cause <= QTREE_LOST_PURGED || way->lost[cause] > 0) { /* a later version may have more causes */
            printf(" %s %" PRIu64, qtree_code_name(cause), way->lost[cause]);
        }
    }
    printf(" refused %" PRIu64 " unwritten %" PRIu64 " queued %" PRIu64 " marked %" PRIu64 " unaccounted %" PRIu64 "\n",
           way->refused, way->unwritten, row.queued.packets, row.marked.packets, unaccounted);
    return unaccounted == 0 && row.arrived.packets + way->refused == way->arrived &&
           row.sent.packets == way->written + way->unwritten && row.queued.packets + way->free_count == way->buffers;
}

/* Plays a line in both directions; if it is faulty or refused, prints why and returns false. */
static bool play_line(struct tunnel *tunnel, const char *line, size_t number) {
    for (int i = 0; i < 2; i++) {
        qtree_fault fault;
        qtree_code code = qtree_command(&tunnel->ways[i].device, (const uint8_t *)line, strlen(line), now_ns(), &fault);
        if (code == QTREE_FAULTY) {
            fprintf(stderr, "tunnel: %s:%zu: word %zu, %s: %s\n", tunnel->file, number, fault.word, qtree_fault_name(fault.number), line);
        } else if (code != QTREE_DONE) {
            const char *why = code == QTREE_NO_COMMAND ? "it changes no tree" : qtree_code_name(code);
            fprintf(stderr, "tunnel: %s:%zu: refused, %s: %s\n", tunnel->file, number, why, line);
        }
        if (code != QTREE_DONE) {
            return false;
        }
    }
    return true;
}

/* Plays each line of the file that is new or has changed; false if one of them cannot be played. */
static bool play_lines(struct tunnel *tunnel) {
    FILE *file = fopen(tunnel->file, "r");
    if (file == NULL) {
        fprintf(stderr, "tunnel: %s: %s\n", tunnel->file, strerror(errno));
        return false;
    }
    char line[LINE_SIZE];
    bool is_right = true;
    for (size_t i = 0; is_right && fgets(line, sizeof line, file) != NULL; i++) {
        line[strcspn(line, "\n")] = '\0';
        char first = line[strspn(line, " \t\r")];
        if (i == LINES || strlen(line) == LINE_SIZE - 1) {
            fprintf(stderr, "tunnel: %s:%zu: over %d lines or %d bytes\n", tunnel->file, i + 1, LINES, LINE_SIZE - 2);
            is_right = false;
        } else if (first != '\0' && first != '#' && strcmp(line, tunnel->lines[i]) != 0) {
            is_right = play_line(tunnel, line, i + 1);
            strcpy(tunnel->lines[i], is_right ? line : "");
        }
    }
    fclose(file);
    return is_right;
}

/* Plays the file, takes what its lines lost, and gets the buffers that its tree needs; false if not all of this can be done. */
static bool play_file(struct tunnel *tunnel) {
    bool is_right = play_lines(tunnel);
    for (int i = 0; i < 2; i++) {
        take_losses(&tunnel->ways[i]);
        is_right = way_grow(&tunnel->ways[i]) && is_right;
    }
    return is_right;
}

static int open_tun(const char *name) {
    struct ifreq wanted = { .ifr_flags = IFF_TUN | IFF_NO_PI };
    strncpy(wanted.ifr_name, name, IFNAMSIZ - 1);
    int tun = open("/dev/net/tun", O_RDWR | O_NONBLOCK | O_CLOEXEC);
    if (tun < 0 || ioctl(tun, TUNSETIFF, &wanted) < 0) {
        fprintf(stderr, "tunnel: the TUN device %s cannot be opened: %s\n", name, strerror(errno));
        return -1;
    }
    return tun;
}

/* Opens both TUN devices and the timer, and takes signals as something to read. */
static bool open_all(struct tunnel *tunnel) {
    sigset_t signals;
    sigemptyset(&signals);
    sigaddset(&signals, SIGUSR1);
    sigaddset(&signals, SIGHUP);
    sigaddset(&signals, SIGTERM);
    sigaddset(&signals, SIGINT);
    sigprocmask(SIG_BLOCK, &signals, NULL);
    tunnel->signals = signalfd(-1, &signals, SFD_CLOEXEC | SFD_NONBLOCK);
    tunnel->timer = timerfd_create(CLOCK_MONOTONIC, TFD_CLOEXEC);
    struct way *ways = tunnel->ways;
    ways[0].from = ways[1].to = open_tun(ways[0].from_name);
    ways[0].to = ways[1].from = ways[0].from < 0 ? -1 : open_tun(ways[0].to_name);
    bool has_seed = getrandom(&seed, sizeof seed, 0) == sizeof seed;
    return has_seed && tunnel->signals >= 0 && tunnel->timer >= 0 && ways[0].to >= 0;
}

/* Whether the program goes on. */
static bool take_signal(struct tunnel *tunnel) {
    struct signalfd_siginfo signal;
    if (read(tunnel->signals, &signal, sizeof signal) != sizeof signal) {
        return true;
    }
    if (signal.ssi_signo == SIGUSR1) {
        way_show(&tunnel->ways[0]);
        way_show(&tunnel->ways[1]);
        puts("");
        fflush(stdout);
    } else if (signal.ssi_signo == SIGHUP) {
        play_file(tunnel);
    }
    return signal.ssi_signo == SIGUSR1 || signal.ssi_signo == SIGHUP;
}

/* Moves frames until a signal stops it; false where it cannot go on. */
static bool run(struct tunnel *tunnel) {
    struct way *ways = tunnel->ways;
    struct pollfd watched[] = { { ways[0].from, POLLIN, 0 }, { ways[1].from, POLLIN, 0 },
                                { tunnel->timer, POLLIN, 0 }, { tunnel->signals, POLLIN, 0 } };
    do {
        uint64_t next = UINT64_MAX;
        for (int i = 0; i < 2; i++) {
            if ((watched[i].revents != 0 && !way_read(&ways[i])) || !way_write(&ways[i], &next)) {
                return false;
            }
        }
        next = next == UINT64_MAX ? 0 : next; /* which disarms the timer: nothing waits */
        struct itimerspec at = { .it_value = { (time_t)(next / 1000000000), (long)(next % 1000000000) } };
        timerfd_settime(tunnel->timer, TFD_TIMER_ABSTIME, &at, NULL);
        if (poll(watched, sizeof watched / sizeof watched[0], -1) < 0 && errno != EINTR) {
            perror("tunnel: poll");
            return false;
        }
    } while (watched[3].revents == 0 || take_signal(tunnel));
    return true;
}

int main(int argc, char **argv) {
    static struct tunnel tunnel; /* with all bytes 0, both devices are closed, and no buffer is there */
    if (argc != 4 || strlen(argv[1]) >= IFNAMSIZ || strlen(argv[2]) >= IFNAMSIZ) {
        fprintf(stderr, "usage: tunnel DEVICE DEVICE FILE, where a device has a name of %d bytes at most\n", IFNAMSIZ - 1);
        return 2;
    }
    tunnel.file = argv[3];
    bool is_right = false;
    if (!way_open(&tunnel.ways[0], argv[1], argv[2]) || !way_open(&tunnel.ways[1], argv[2], argv[1])) {
        fprintf(stderr, "tunnel: an allocation failed\n");
    } else if (play_file(&tunnel) && open_all(&tunnel)) {
        is_right = run(&tunnel);
        is_right = way_totals(&tunnel.ways[0]) && is_right;
        is_right = way_totals(&tunnel.ways[1]) && is_right;
    }
    way_close(&tunnel.ways[0]);
    way_close(&tunnel.ways[1]);
    return is_right ? 0 : 1;
}
