/* Devices on threads of their own, which one thread sets up and reads.
 *
 *     many_devices [DEVICES] <FILE      plays the lines of a file, each on all devices (by default 4) or on none
 *     many_devices --bench [SECONDS]    processor time a packet at one device and at four, in turns
 *
 * Beside lines of tc a file has `sum`, `sum root` and `sum MAJOR:MINOR`, which print what all devices counted at a place, and
 * `wait MILLISECONDS`. The status is 0 where every packet is accounted for. */
#include "fleet.h"

#include <inttypes.h>
#include <stdio.h>
#include <stdlib.h>
#include <string.h>
#include <time.h>

enum { LINE_SIZE = 512, ROUNDS = 5, BENCH_DEVICES = 4 };

/* What the workers counted together, beside what their devices did, and how many buffers no packet has. */
struct total {
    struct account account;
    qtree_row row;
    size_t free, buffers;
};

static void pause_ms(uint64_t ms) {
    nanosleep(&(struct timespec){ (time_t)(ms / 1000), (long)(ms % 1000 * 1000000) }, NULL);
}

static void print_row(const char *place, const qtree_row *row) {
    printf("%s: arrived %" PRIu64 " sent %" PRIu64 " refused %" PRIu64 " dropped %" PRIu64 " queued %" PRIu64 " marked %" PRIu64 "\n", place,
           row->arrived.packets, row->sent.packets, row->refused.packets, row->dropped.packets, row->queued.packets, row->marked.packets);
}

static void play_sum(struct fleet *fleet, const char *place) {
    unsigned major = 0, minor = 0;
    qtree_row row;
    uint32_t kind = *place == '\0' ? QTREE_TOP : strcmp(place, "root") == 0 ? QTREE_ROOT : QTREE_CLASS;
    if (kind == QTREE_CLASS && (sscanf(place, "%4x:%4x", &major, &minor) != 2)) {
        printf("%s is no place\n", place);
    } else if (fleet_stats(fleet, kind, (uint16_t)major, (uint16_t)minor, &row) != QTREE_DONE) {
        printf("%s is not there\n", place);
    } else {
        print_row(kind == QTREE_TOP ? "device" : place, &row);
    }
}

static void play_line(struct fleet *fleet, const char *line) {
    qtree_fault fault;
    qtree_code code = fleet_command(fleet, line, &fault);
    if (code == QTREE_FAULTY) {
        printf("no device: word %zu, %s: %s\n", fault.word, qtree_fault_name(fault.number), line);
    } else if (code != QTREE_DONE) {
        printf("no device: %s: %s\n", code == QTREE_NO_COMMAND ? "it changes no tree" : qtree_code_name(code), line);
    } else {
        printf("all %zu devices: %s\n", fleet->count, line);
    }
}

static void play_all(struct fleet *fleet, FILE *file) {
    char line[LINE_SIZE];
    while (fgets(line, sizeof line, file) != NULL) {
        line[strcspn(line, "\n")] = '\0';
        if (strncmp(line, "wait ", 5) == 0) {
            pause_ms(strtoull(line + 5, NULL, 10));
        } else if (strncmp(line, "sum", 3) == 0 && (line[3] == ' ' || line[3] == '\0')) {
            play_sum(fleet, line + 3 + (line[3] == ' '));
        } else if (line[0] != '#' && line[0] != '\0') {
            play_line(fleet, line);
        }
        fflush(stdout);
    }
}

/* Once the workers have ended. Each packet was sent, lost or is queued, and the devices counted as the workers did. */
static struct total totals(struct fleet *fleet) {
    struct total total = { 0 };
    for (size_t i = 0; i < fleet->count; i++) {
        const struct worker *worker = &fleet->workers[i];
        total.account.made += worker->account.made;
        total.account.sent += worker->account.sent;
        total.account.processor_ns += worker->account.processor_ns;
        for (uint32_t cause = QTREE_LOST_TOO_LONG; cause <= QTREE_LOST_MOST; cause++) {
            total.account.lost[cause] += worker->account.lost[cause];
        }
        total.free += worker->free_count;
        total.buffers += worker->buffers;
    }
    fleet_stats(fleet, QTREE_TOP, 0, 0, &total.row);
    return total;
}

static bool print_totals(const struct total *total) {
    uint64_t unaccounted = total->account.made - total->account.sent - total->row.queued.packets, lost = 0;
    printf("made %" PRIu64 " sent %" PRIu64, total->account.made, total->account.sent);
    for (uint32_t cause = QTREE_LOST_TOO_LONG; cause <= QTREE_LOST_MOST; cause++) {
        lost += total->account.lost[cause];
        if (cause <= QTREE_LOST_PURGED || total->account.lost[cause] > 0) { /* a later version may have more causes */
            printf(" %s %" PRIu64, qtree_code_name(cause), total->account.lost[cause]);
        }
    }
    unaccounted -= lost;
    printf(" queued %" PRIu64 " unaccounted %" PRIu64 "\n", total->row.queued.packets, unaccounted);
    return unaccounted == 0 && total->free + total->row.queued.packets == total->buffers &&
           total->row.arrived.packets == total->account.made && total->row.sent.packets == total->account.sent &&
           total->row.refused.packets + total->row.dropped.packets == lost;
}

/* Opens and starts so many; if it cannot, it prints why and returns false. */
static bool open_running(struct fleet *fleet, size_t count) {
    qtree_code code = fleet_open(fleet, count);
    if (code != QTREE_DONE) {
        fprintf(stderr, "many_devices: %zu devices cannot be opened: %s\n", count, code == QTREE_MEMORY ? "an allocation failed" : "1 to 64 can");
        return false;
    }
    if (!fleet_start(fleet)) {
        fprintf(stderr, "many_devices: a thread cannot be started\n");
        return false;
    }
    return true;
}

/* What a run measured. */
struct measured {
    double ns_a_packet, packets_a_second, longest_ms;
    bool is_right;
};

/* So many devices for so many seconds; ten times a second a line changes all of them or none, and their rows are added up. */
static struct measured measure(size_t count, double seconds) {
    static const char *const lines[] = { "tc qdisc change dev x root fq_codel target 4ms", "tc qdisc change dev x root fq_codel flows 7",
                                         "tc qdisc change dev x root fq_codel target 5ms" };
    struct fleet fleet;
    struct measured measured = { .is_right = open_running(&fleet, count) };
    qtree_fault fault;
    qtree_row row;
    if (measured.is_right && fleet_command(&fleet, "tc qdisc add dev x root handle 1: fq_codel", &fault) != QTREE_DONE) {
        measured.is_right = false;
    }
    uint64_t begun = now_ns();
    for (size_t turn = 0; measured.is_right && (double)(now_ns() - begun) < seconds * 1e9; turn++) {
        uint64_t asked = now_ns();
        fleet_command(&fleet, lines[turn % 3], &fault);
        fleet_stats(&fleet, QTREE_TOP, 0, 0, &row);
        double took = (double)(now_ns() - asked) / 1e6;
        measured.longest_ms = took > measured.longest_ms ? took : measured.longest_ms;
        pause_ms(100);
    }
    fleet_stop(&fleet);
    double took = (double)(now_ns() - begun) / 1e9;
    struct total total = totals(&fleet);
    measured.ns_a_packet = (double)total.account.processor_ns / (double)total.account.sent;
    measured.packets_a_second = (double)total.account.sent / took;
    measured.is_right = measured.is_right && total.row.sent.packets == total.account.sent;
    fleet_close(&fleet);
    return measured;
}

/* One device and four in turns; of each the round with the least processor time a packet. */
static int bench(double seconds) {
    struct measured least[2];
    for (int round = 0; round < ROUNDS; round++) {
        for (int i = 0; i < 2; i++) {
            struct measured it = measure(i == 0 ? 1 : BENCH_DEVICES, seconds / (2 * ROUNDS));
            if (!it.is_right) {
                return 1;
            }
            least[i] = round == 0 || it.ns_a_packet < least[i].ns_a_packet ? it : least[i];
        }
    }
    for (int i = 0; i < 2; i++) {
        printf("%d %s: %.1f ns of a processor a packet, %.1f million packets a second, a line and a sum within %.1f ms\n",
               i == 0 ? 1 : BENCH_DEVICES, i == 0 ? "device" : "devices", least[i].ns_a_packet, least[i].packets_a_second / 1e6, least[i].longest_ms);
    }
    printf("processor time a packet, four to one: %.2f\n", least[1].ns_a_packet / least[0].ns_a_packet);
    return 0;
}

int main(int argc, char **argv) {
    if (argc > 1 && strcmp(argv[1], "--bench") == 0) {
        return bench(argc > 2 ? strtod(argv[2], NULL) : 10);
    }
    struct fleet fleet;
    bool is_right = open_running(&fleet, argc > 1 ? strtoul(argv[1], NULL, 10) : BENCH_DEVICES);
    if (is_right) {
        play_all(&fleet, stdin);
        fleet_stop(&fleet);
        struct total total = totals(&fleet);
        is_right = print_totals(&total);
    }
    fleet_close(&fleet);
    return is_right ? 0 : 1;
}
