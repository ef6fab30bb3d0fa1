/* Reads a mix: a file that says which trees are compared, and which senders send through each of them (docs/SIMULATE.md). */
#ifndef MIX_H
#define MIX_H

#include "../c/reader.h"
#include "../c/text.h"

enum { GROUPS = 8, FLOWS = 64, TREES = 2, NAME = 64, WORDS = 40 };

enum sends { SENDS_NOTHING, SENDS_TCP, SENDS_EVERY, SENDS_RANDOM, SENDS_RATE };

/* Flows of one kind, which are drawn in one colour. Times are in nanoseconds. */
struct group {
    char name[NAME];
    enum sends sends;
    uint32_t count; /* of flows */
    uint32_t len; /* of a packet, in bytes */
    uint64_t gap; /* between two packets */
    uint64_t rtt, start, stop;
    size_t first_flow;
};

struct tree {
    char name[NAME];
    struct text lines; /* of tc */
    uint64_t first; /* the number of the line before them */
};

struct mix {
    struct group groups[GROUPS];
    size_t group_count;
    qtree_packet flows[FLOWS];
    uint32_t group_of[FLOWS];
    size_t flow_count;
    struct tree trees[TREES];
    size_t tree_count;
    uint64_t last; /* when the run ends */
    uint64_t link; /* bits a second of the wire behind the device, or 0 where it takes no time */
    uint64_t late; /* by how much polls come late */
    uint64_t seed;
    uint16_t mtu;
};

/* Reads all lines. What is wrong with them is written to faults, three rows for each, as `qtree play --explain` writes it; false if
 * anything is, or if an allocation fails. */
bool mix_read(struct mix *mix, const uint8_t *bytes, size_t len, struct text *faults);
void mix_free(struct mix *mix);

#endif
