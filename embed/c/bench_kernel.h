/* The kernel's own qdiscs, by bench/kernel.c, where that is linked (`bench/run c`); else each of these functions is NULL. */
#ifndef BENCH_KERNEL_H
#define BENCH_KERNEL_H

#include <stdbool.h>
#include <stdint.h>

/* The trees, as bench/kernel.c numbers them. */
enum shape { PFIFO, PRIO, TBF, DRR_OF_PFIFOS, FQ_CODEL, DRR_OF_FQ_CODELS };

/* The packets, which come in turn, and the tree: its shape, the flows and the limit of each fq_codel, and the packets that are queued first. */
struct load {
    const uint32_t *hashes;
    const uint8_t *prios;
    const uint16_t *ports;
    uint32_t packets, shape, flows, drop_batch, queued, limit;
    bool ecn;
};

__attribute__((weak)) void *bench_kernel_open(const struct load *load);

/* So many packets arrive and leave, a burst at a time, between which the clock moves by `step` nanoseconds a packet. It returns a sum over
 * what left. */
__attribute__((weak)) uint64_t bench_kernel_run(void *opened, uint32_t step, uint32_t packets, uint32_t burst);

__attribute__((weak)) void bench_kernel_close(void *opened);

#endif
