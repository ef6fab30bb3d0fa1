/* blast CARD BYTES SECONDS FLOWS RATE: sends frames of UDP, so many a second or, with 0, as fast as it can, and prints how many, and the
 * nanoseconds of processor time. */
#include <arpa/inet.h>
#include <linux/if_packet.h>
#include <net/if.h>
#include <stdint.h>
#include <stdio.h>
#include <stdlib.h>
#include <string.h>
#include <sys/socket.h>
#include <time.h>

enum { BATCH = 32, LONGEST = 1514 };

static uint8_t frames[BATCH][LONGEST];

static uint64_t clock_of(clockid_t which) {
    struct timespec now;
    clock_gettime(which, &now);
    return (uint64_t)now.tv_sec * 1000000000 + (uint64_t)now.tv_nsec;
}

static void put(uint8_t *at, unsigned number) {
    at[0] = (uint8_t)(number >> 8);
    at[1] = (uint8_t)number;
}

static void make(uint8_t *frame, unsigned bytes) {
    memcpy(frame, "\2\0\0\0\0\2\2\0\0\0\0\1\x08\0\x45", 15);
    put(frame + 16, bytes - 14);
    memcpy(frame + 22, "\x40\x11", 2);
    memcpy(frame + 26, "\x0a\x4d\x09\1\x0a\x4d\x09\2", 8);
    put(frame + 38, bytes - 34);
    unsigned sum = 0;
    for (int i = 14; i < 34; i += 2) {
        sum += (unsigned)frame[i] << 8 | frame[i + 1];
    }
    put(frame + 24, ~(sum % 0xffff) & 0xffff);
}

/* How many frames are due now, up to a batch; sleeps where none is. */
static int due_now(double rate, uint64_t sent, uint64_t began) {
    double due = rate * (double)(clock_of(CLOCK_MONOTONIC) - began) / 1e9 - (double)sent;
    if (rate > 0 && due < 1) {
        nanosleep(&(struct timespec){ 0, 200000 }, NULL);
        return 0;
    }
    return rate == 0 || due > BATCH ? BATCH : (int)due;
}

static int open_card(const char *card) {
    int fd = socket(AF_PACKET, SOCK_RAW, 0), on = 1;
    struct sockaddr_ll at = { .sll_family = AF_PACKET, .sll_ifindex = (int)if_nametoindex(card) };
    setsockopt(fd, SOL_PACKET, PACKET_QDISC_BYPASS, &on, sizeof on);
    return fd >= 0 && bind(fd, (struct sockaddr *)&at, sizeof at) == 0 ? fd : -1;
}

int main(int argc, char **argv) {
    struct mmsghdr messages[BATCH];
    struct iovec parts[BATCH];
    int fd = argc == 6 ? open_card(argv[1]) : -1;
    if (fd < 0) {
        fprintf(stderr, "blast CARD BYTES SECONDS FLOWS RATE\n");
        return 2;
    }
    unsigned bytes = (unsigned)atoi(argv[2]), flows = (unsigned)atoi(argv[4]), number = 0;
    uint64_t sent = 0, began = clock_of(CLOCK_MONOTONIC), until = began + (uint64_t)(atof(argv[3]) * 1e9);
    double rate = atof(argv[5]);
    for (int i = 0; i < BATCH; i++) {
        make(frames[i], bytes);
        parts[i] = (struct iovec){ frames[i], bytes };
        messages[i] = (struct mmsghdr){ .msg_hdr = { .msg_iov = &parts[i], .msg_iovlen = 1 } };
    }
    while (clock_of(CLOCK_MONOTONIC) < until) {
        int due = due_now(rate, sent, began);
        for (int i = 0; i < due; i++) {
            put(frames[i] + 34, 1024 + number++ % flows);
        }
        int count = due == 0 ? 0 : sendmmsg(fd, messages, (unsigned)due, 0);
        sent += count > 0 ? (uint64_t)count : 0;
    }
    printf("%llu %llu\n", (unsigned long long)sent, (unsigned long long)clock_of(CLOCK_PROCESS_CPUTIME_ID));
    return 0;
}
