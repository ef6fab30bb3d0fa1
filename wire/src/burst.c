#include "burst.h"

#include "wire.h"

#include <inttypes.h>
#include <pthread.h>
#include <sched.h>
#include <stdlib.h>
#include <sys/prctl.h>
#include <time.h>

enum { SLEEPS = 1000, SLEEP = 1000000, LONGEST = 1522, PRIORITY = 10 };

uint64_t burst_for(uint64_t rate, uint64_t late, uint64_t mtu) {
    uint64_t brought = (uint64_t)((double)rate / 8e9 * (double)late);
    return brought + mtu > 2 * mtu ? brought + mtu : 2 * mtu;
}

static int compare(const void *one, const void *other) {
    uint64_t first = *(const uint64_t *)one, second = *(const uint64_t *)other;
    return (first > second) - (first < second);
}

static void *measure(void *with) {
    uint64_t *late = with, found[SLEEPS];
    prctl(PR_SET_TIMERSLACK, 1UL);
    for (int i = 0; i < SLEEPS; i++) {
        uint64_t until = clock_now() + SLEEP;
        nanosleep(&(struct timespec){ 0, SLEEP }, NULL);
        uint64_t now = clock_now();
        found[i] = now > until ? now - until : 0;
    }
    qsort(found, SLEEPS, sizeof found[0], compare);
    *late = found[SLEEPS - 1 - SLEEPS / 1000];
    return NULL;
}

uint64_t burst_lateness(bool is_real_time) {
    pthread_attr_t how;
    pthread_t thread;
    uint64_t late = UINT64_MAX;
    pthread_attr_init(&how);
    if (is_real_time) {
        pthread_attr_setinheritsched(&how, PTHREAD_EXPLICIT_SCHED);
        pthread_attr_setschedpolicy(&how, SCHED_FIFO);
        pthread_attr_setschedparam(&how, &(struct sched_param){ .sched_priority = PRIORITY });
    }
    if (pthread_create(&thread, &how, measure, &late) == 0) {
        pthread_join(thread, NULL);
    }
    pthread_attr_destroy(&how);
    return late;
}

void burst_table(FILE *file) {
    static const uint64_t rates[] = { 1000000, 10000000, 100000000, 1000000000 };
    uint64_t late[2] = { burst_lateness(false), burst_lateness(true) };
    fprintf(file, "| Rate, Mbit/s | burst without real-time priority | with it |\n|---|---|---|\n");
    for (size_t i = 0; i < sizeof rates / sizeof rates[0]; i++) {
        fprintf(file, "| %" PRIu64, rates[i] / 1000000);
        for (int which = 0; which < 2; which++) {
            if (late[which] == UINT64_MAX) {
                fprintf(file, " | not permitted");
            } else {
                fprintf(file, " | %" PRIu64, burst_for(rates[i], late[which], LONGEST));
            }
        }
        fprintf(file, " |\n");
    }
    fprintf(file, "\nOf 1000 sleeps of 1 ms, 999 ended at most %.3f ms late without it", (double)late[0] / 1e6);
    if (late[1] != UINT64_MAX) {
        fprintf(file, ", and %.3f ms with it", (double)late[1] / 1e6);
    }
    fprintf(file, ".\n");
}
