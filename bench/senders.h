/* What both programs of bench/senders have in common: their arguments, the packets of a sender, and the clocks. */
#ifndef SENDERS_H
#define SENDERS_H

#include <pthread.h>
#include <sched.h>
#include <stdatomic.h>
#include <stdbool.h>
#include <stdint.h>
#include <stdio.h>
#include <stdlib.h>
#include <string.h>
#include <time.h>

/* As many packets of a sender may be on their way at once, which is the length of its ring, and as many senders there may be. */
enum { ROOM = 256, MOST_SENDERS = 16, MOST_BATCH = 64, FLOWS = 1024 };

/* A count that a thread of its own writes: no other shares its cache line. */
struct count {
	_Alignas(128) _Atomic uint64_t value;
};

/* PROGRAM pfifo|fq_codel SENDERS PACKETS BATCH: packets for each sender, and how many by one call, or under one lock. */
struct run {
	bool has_flows;
	int senders, batch;
	uint64_t packets;
};

static _Atomic bool begun;

static struct run run_of(int argc, char **argv)
{
	struct run run = { 0 };

	if (argc == 5) {
		run.has_flows = !strcmp(argv[1], "fq_codel");
		run.senders = atoi(argv[2]);
		run.packets = strtoull(argv[3], NULL, 10);
		run.batch = atoi(argv[4]);
	}
	if (run.senders < 1 || run.senders > MOST_SENDERS || run.batch < 1 || run.batch > MOST_BATCH || run.packets % run.batch) {
		fprintf(stderr, "usage: %s pfifo|fq_codel SENDERS PACKETS BATCH\n", argv[0]);
		exit(2);
	}
	return run;
}

/* Marsaglia's xorshift: the flow of a sender's next packet. */
static inline uint32_t next_flow(uint32_t *state)
{
	*state ^= *state << 13;
	*state ^= *state >> 17;
	*state ^= *state << 5;
	return *state % FLOWS;
}

static inline double seconds(clockid_t clock)
{
	struct timespec now;

	clock_gettime(clock, &now);
	return (double)now.tv_sec + (double)now.tv_nsec * 1e-9;
}

/* Starts the senders, drains, and prints nanoseconds a packet: by the clock on the wall, and of all processors together. */
static void measure(const struct run *run, void *(*send_all)(void *), void (*drain)(const struct run *, uint64_t))
{
	pthread_t threads[MOST_SENDERS];
	uint64_t packets = run->packets * run->senders;
	double wall, processors;

	for (intptr_t i = 0; i < run->senders; i++)
		if (pthread_create(&threads[i], NULL, send_all, (void *)i))
			exit(1);
	wall = seconds(CLOCK_MONOTONIC);
	processors = seconds(CLOCK_PROCESS_CPUTIME_ID);
	begun = true;
	drain(run, packets);
	wall = seconds(CLOCK_MONOTONIC) - wall;
	processors = seconds(CLOCK_PROCESS_CPUTIME_ID) - processors;
	for (int i = 0; i < run->senders; i++)
		pthread_join(threads[i], NULL);
	printf("%.1f %.1f\n", wall / packets * 1e9, processors / packets * 1e9);
}

#endif
