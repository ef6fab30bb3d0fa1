/* Says what a device takes of memory, and gives a counter of instructions something to count.
 *
 *     measure                    the heap's bytes of a device with an fq_codel of 1024 flows, empty and with 10,240 packets, and what the
 *                                kernel counts of the whole program
 *     measure pfifo|fq PAIRS     arrivals and polls, one of each in turn, with 100 packets queued: what PAIRS + 1000 take beyond PAIRS
 *                                are the instructions of 1000 pairs */
#include "qtree.h"

#include <malloc.h>
#include <stdio.h>
#include <stdlib.h>
#include <string.h>

enum { FLOWS = 1024, PACKETS = 10240, QUEUED = 100 };

static size_t bytes;

void *__real_malloc(size_t size);
void *__real_realloc(void *at, size_t size);
void *__real_aligned_alloc(size_t align, size_t size);
void __real_free(void *at);

static void *counted(void *at) {
    bytes += at != NULL ? malloc_usable_size(at) : 0;
    return at;
}

void *__wrap_malloc(size_t size) { return counted(__real_malloc(size)); }

void *__wrap_aligned_alloc(size_t align, size_t size) { return counted(__real_aligned_alloc(align, size)); }

void *__wrap_realloc(void *at, size_t size) {
    size_t before = at != NULL ? malloc_usable_size(at) : 0;
    void *made = __real_realloc(at, size);
    bytes -= made != NULL ? before : 0;
    return counted(made);
}

void __wrap_free(void *at) {
    bytes -= at != NULL ? malloc_usable_size(at) : 0;
    __real_free(at);
}

static void command(qtree_device *device, const char *line) {
    qtree_fault fault;
    if (qtree_command(device, (const uint8_t *)line, strlen(line), 0, &fault) != QTREE_DONE) {
        fprintf(stderr, "refused: %s\n", line);
        exit(1);
    }
}

static void arrive(qtree_device *device, uint32_t flow, uint64_t now) {
    qtree_packet packet = { .len = 1000, .buf = flow };
    packet.hash = flow;
    if (qtree_arrive(device, &packet, now) > QTREE_LOST_PURGED) {
        exit(1);
    }
}

static void tell(const char *what) { printf("%-50s %9zu bytes\n", what, bytes); }

static void memory(qtree_device *device) {
    command(device, "tc qdisc add dev wan root fq_codel limit 10240 flows 1024");
    tell("a device with an fq_codel of 1024 flows");
    for (uint32_t i = 0; i < PACKETS; i++) {
        arrive(device, i % FLOWS, 0);
    }
    tell("the same with 10,240 packets");
    FILE *status = fopen("/proc/self/status", "r");
    for (char line[256]; status != NULL && fgets(line, sizeof line, status) != NULL;) {
        if (strncmp(line, "VmRSS:", 6) == 0) {
            printf("the program's resident size is%s", line + 6);
        }
    }
}

int main(int argc, char **argv) {
    qtree_device device = QTREE_CLOSED;
    if (qtree_open(&device, &(qtree_settings){ .txqueuelen = 1000, .mtu = 1514 }) != QTREE_DONE) {
        return 1;
    }
    tell("a device without a qdisc");
    if (argc == 1) {
        memory(&device);
        return 0;
    }
    command(&device, strcmp(argv[1], "fq") == 0 ? "tc qdisc add dev wan root fq_codel" : "tc qdisc add dev wan root pfifo limit 1000");
    uint32_t pairs = QUEUED + (uint32_t)strtoul(argc > 2 ? argv[2] : "0", NULL, 10);
    qtree_packet packet;
    for (uint32_t i = 0; i < pairs; i++) {
        arrive(&device, i * 7 % 64, i);
        if (i >= QUEUED && qtree_poll(&device, i, &packet) != QTREE_DONE) {
            return 1;
        }
    }
    return 0;
}
