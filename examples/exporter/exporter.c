/* A device whose counters Prometheus reads, with packets that it makes itself.
 *
 *     exporter DEVICE <FILE                plays the lines of a file, goes on for ten seconds of its own clock, and writes the text
 *     exporter DEVICE --listen PORT <FILE  goes on with the time of the system, and answers GET /metrics on 127.0.0.1 */
#include "metrics.h"

#include <arpa/inet.h>
#include <errno.h>
#include <poll.h>
#include <pthread.h>
#include <signal.h>
#include <stdlib.h>
#include <string.h>
#include <sys/socket.h>
#include <time.h>
#include <unistd.h>

enum { LINE_SIZE = 512, REQUEST_SIZE = 4096, FLOWS = 64, CLASSES = 4, FIRST_PORT = 5000, PACKETS = 2 };
enum { MILLISECOND = 1000000, SECOND = 1000 * MILLISECOND };

struct exporter {
    const char *name;
    pthread_mutex_t lock; /* of the device, the losses and the lateness */
    qtree_device device;
    struct losses losses;
    struct lateness lateness;
    uint64_t now; /* the time of the last turn */
    uint32_t made;
};

static uint64_t now_ns(void) {
    struct timespec now;
    clock_gettime(CLOCK_MONOTONIC, &now);
    return (uint64_t)now.tv_sec * 1000000000 + (uint64_t)now.tv_nsec;
}

static bool set_up(struct exporter *exporter, FILE *file) {
    char line[LINE_SIZE];
    if (qtree_open(&exporter->device, &(qtree_settings){ .txqueuelen = 1000, .mtu = 1514 }) != QTREE_DONE) {
        return false;
    }
    while (fgets(line, sizeof line, file) != NULL) {
        qtree_fault fault;
        line[strcspn(line, "\n")] = '\0';
        if (line[0] == '#' || line[0] == '\0') {
            continue;
        }
        qtree_code code = qtree_command(&exporter->device, (const uint8_t *)line, strlen(line), 0, &fault);
        if (code != QTREE_DONE) {
            fprintf(stderr, "exporter: %s: %s\n", code == QTREE_FAULTY ? qtree_fault_name(fault.number) : qtree_code_name(code), line);
            return false;
        }
    }
    lateness_begin(&exporter->lateness, &exporter->device);
    return true;
}

/* Some packets of several flows arrive. */
static void bring(struct exporter *exporter, uint64_t now) {
    for (int i = 0; i < PACKETS; i++) {
        uint32_t flow = exporter->made++ % FLOWS;
        qtree_packet packet = {
            .len = (uint16_t)(100 + exporter->made * 37 % 1400), .family = 4, .proto = 17, .src_low = 0x0a000000 + flow, .hash = flow,
            .dport = (uint16_t)(FIRST_PORT + flow % CLASSES), .ecn = flow % 3 == 0 ? 2 : 0,
        };
        qtree_arrive(&exporter->device, &packet, now);
        lateness_ask(&exporter->lateness, &exporter->device, now);
    }
}

/* The packets that are due are sent, and losses are reaped. */
static void turn(struct exporter *exporter, uint64_t now) {
    qtree_packet packet;
    exporter->now = now;
    lateness_count(&exporter->lateness, now);
    while (exporter->lateness.due <= now) {
        if (qtree_poll(&exporter->device, now, &packet) == QTREE_DONE) {
            /* transmits packet.buf */
        } else {
            exporter->lateness.due = UINT64_MAX; /* nothing is due any more, and what follows is asked anew */
        }
        lateness_ask(&exporter->lateness, &exporter->device, now);
    }
    qtree_loss loss;
    while (qtree_reap(&exporter->device, &loss) == QTREE_DONE) {
        exporter->losses.by_cause[loss.cause].packets++;
        exporter->losses.by_cause[loss.cause].bytes += loss.packet.len;
    }
}

/* The lock is held while the numbers are read, and not while they are written. */
static bool write_all(struct exporter *exporter, FILE *file) {
    struct tree tree;
    pthread_mutex_lock(&exporter->lock);
    bool is_read = tree_read(&tree, &exporter->device, exporter->now) == QTREE_DONE;
    struct losses losses = exporter->losses;
    struct lateness lateness = exporter->lateness;
    pthread_mutex_unlock(&exporter->lock);
    if (is_read) {
        metrics_write(file, &(struct source){ exporter->name, &tree, &losses, &lateness }, 1);
    }
    tree_free(&tree);
    return is_read;
}

/* Whether a client can be read from, or written to, before this time. */
static bool is_ready(int client, short what, uint64_t until) {
    uint64_t now = now_ns();
    return now < until && poll(&(struct pollfd){ .fd = client, .events = what }, 1, (int)((until - now) / MILLISECOND) + 1) > 0;
}

/* Whether a request is one for the text. It is read to its blank line, or until a second has gone, however slowly its bytes come. */
static bool read_request(int client) {
    char request[REQUEST_SIZE + 1];
    size_t len = 0;
    uint64_t until = now_ns() + SECOND;
    while (len < REQUEST_SIZE && is_ready(client, POLLIN, until)) {
        ssize_t got = recv(client, request + len, REQUEST_SIZE - len, MSG_DONTWAIT);
        if (got <= 0) {
            return false;
        }
        len += (size_t)got;
        request[len] = '\0';
        if (strstr(request, "\r\n\r\n") != NULL) {
            return strncmp(request, "GET /metrics ", 13) == 0;
        }
    }
    return false;
}

/* Sends a text, or what of it the client takes in a second. */
static void send_all(int client, const char *text, size_t len) {
    uint64_t until = now_ns() + SECOND;
    for (size_t sent = 0; sent < len && is_ready(client, POLLOUT, until);) {
        ssize_t more = send(client, text + sent, len - sent, MSG_DONTWAIT);
        sent = more > 0 ? sent + (size_t)more : len;
    }
}

static void answer(struct exporter *exporter, int client) {
    static const char form[] = "HTTP/1.1 %s\r\nContent-Type: text/plain; version=0.0.4; charset=utf-8\r\nContent-Length: %zu\r\nConnection: close\r\n\r\n";
    char *text = NULL;
    size_t len = 0;
    FILE *file = open_memstream(&text, &len);
    bool is_asked = read_request(client), is_written = is_asked && file != NULL && write_all(exporter, file);
    if (file != NULL) {
        fclose(file);
    }
    len = is_written ? len : 0;
    dprintf(client, form, is_written ? "200 OK" : is_asked ? "503 Service Unavailable" : "404 Not Found", len);
    send_all(client, text, len);
    free(text);
    close(client);
}

/* The packets go on, however slow those are that ask: some come each millisecond, and each is sent when it is due. The time of each turn is
 * read under the lock, just before its polls. */
static void *go_on(void *its) {
    struct exporter *exporter = its;
    for (uint64_t next = now_ns();;) {
        pthread_mutex_lock(&exporter->lock);
        uint64_t now = now_ns();
        if (now >= next) {
            bring(exporter, now);
            next = now + MILLISECOND;
        }
        turn(exporter, now);
        uint64_t until = exporter->lateness.due < next ? exporter->lateness.due : next;
        pthread_mutex_unlock(&exporter->lock);
        struct timespec at = { .tv_sec = (time_t)(until / 1000000000), .tv_nsec = (long)(until % 1000000000) };
        clock_nanosleep(CLOCK_MONOTONIC, TIMER_ABSTIME, &at, NULL);
    }
    return NULL;
}

static int serve(struct exporter *exporter, uint16_t port) {
    struct sockaddr_in here = { .sin_family = AF_INET, .sin_port = htons(port), .sin_addr.s_addr = htonl(INADDR_LOOPBACK) };
    int server = socket(AF_INET, SOCK_STREAM, 0);
    pthread_t thread;
    signal(SIGPIPE, SIG_IGN);
    setsockopt(server, SOL_SOCKET, SO_REUSEADDR, &(int){ 1 }, sizeof(int));
    if (server < 0 || bind(server, (struct sockaddr *)&here, sizeof here) < 0 || listen(server, 8) < 0 ||
        pthread_create(&thread, NULL, go_on, exporter) != 0) {
        perror("exporter");
        return 1;
    }
    for (;;) {
        int client = accept(server, NULL, NULL);
        if (client >= 0) {
            answer(exporter, client);
        }
    }
}

/* The port that a word names; 0, with a line, if it names none. */
static uint16_t port_of(const char *word) {
    char *end;
    errno = 0;
    unsigned long port = strtoul(word, &end, 10);
    if (strspn(word, "0123456789") != strlen(word) || errno != 0 || port < 1 || port > UINT16_MAX) {
        fprintf(stderr, "exporter: '%s' is no port, which is a number from 1 to %d\n", word, UINT16_MAX);
        return 0;
    }
    return (uint16_t)port;
}

int main(int argc, char **argv) {
    if (argc != 2 && (argc != 4 || strcmp(argv[2], "--listen") != 0)) {
        fprintf(stderr, "usage: exporter DEVICE [--listen PORT] <FILE\n");
        return 2;
    }
    uint16_t port = argc == 4 ? port_of(argv[3]) : 0;
    if (argc == 4 && port == 0) {
        return 2;
    }
    struct exporter exporter = { .name = argv[1], .lock = PTHREAD_MUTEX_INITIALIZER, .device = QTREE_CLOSED };
    int status;
    if (!set_up(&exporter, stdin)) {
        status = 1;
    } else if (argc == 4) {
        status = serve(&exporter, port);
    } else {
        for (uint64_t now = 0; now < 10000 * (uint64_t)MILLISECOND; now += MILLISECOND) {
            bring(&exporter, now);
            turn(&exporter, now);
        }
        status = write_all(&exporter, stdout) ? 0 : 1;
    }
    qtree_close(&exporter.device);
    return status;
}
