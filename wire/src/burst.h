/* The burst that a tbf needs on this machine. */
#ifndef BURST_H
#define BURST_H

#include <stdbool.h>
#include <stdint.h>
#include <stdio.h>

/* The bytes that a rate brings while polls are late by so many nanoseconds, and a longest packet more; at least two of these. */
uint64_t burst_for(uint64_t rate, uint64_t late, uint64_t mtu);

/* How late 99.9 % of a thousand sleeps end, in nanoseconds, with real-time priority or without; UINT64_MAX where that may not be had. */
uint64_t burst_lateness(bool is_real_time);

/* The table by rate, with and without real-time priority. */
void burst_table(FILE *file);

#endif
