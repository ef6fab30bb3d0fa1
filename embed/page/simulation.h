/* Runs the senders of a mix through a tree, and measures what becomes of their packets (docs/SIMULATE.md). */
#ifndef SIMULATION_H
#define SIMULATION_H

#include "agenda.h"
#include "mix.h"
#include "tcp.h"

enum { BINS = 300, PLACES = 64, FINE = 512, DELAYS = 56 * FINE, EVENTS_MOST = 1000000 };
__extension__ typedef __int128 wide;

/* What happened to the packets of a group in a part of the run. Times are in nanoseconds. */
struct bin {
    uint64_t count, bytes, delays; /* of the packets that left */
    uint64_t shortest, longest; /* of their delays */
    uint64_t queued; /* the most bytes at any time */
    uint64_t latest; /* the longest time in which a packet that arrived was promised to leave, or 0 */
    uint32_t lost, marked;
};

struct measured {
    struct bin bins[BINS];
    uint64_t arrived, sent, sent_bytes, queued_bytes, marked, longest;
    uint64_t losses[QTREE_LOST_MOST + 1];
    uint32_t delays[DELAYS]; /* how many packets waited so long, in classes that are 0.2 % wide */
};

/* The root or a class of the tree: what is promised there, and what was measured beside it. */
struct place {
    uint32_t kind, place;
    uint16_t handle, major, minor;
    int above; /* the index of the place in which it is, or -1 */
    bool is_leaf, is_used;
    bool has_service, has_worst;
    qtree_promise service;
    qtree_delay worst;
    uint64_t late; /* by how much a poll may be late */
    uint64_t bytes; /* that left */
    uint64_t longest, longest_bytes; /* of the packets that left: their time, and what the device sent until then */
    uint64_t latest_count, latest_missed,
        latest_near; /* of the packets that were promised a latest time: how near one came to it, in ns or bytes */
    bool is_busy, was_busy;
    wide ahead, behind; /* of its share, since it has packets: the most ahead, and the most behind that */
};

/* A packet that is in the device. */
struct waiting {
    uint64_t arrived, before, by, by_bytes;
    uint32_t next_spare;
};

struct flow {
    struct tcp tcp;
    uint64_t random;
    int leaf; /* the index of its place, or -1 while that is not known */
    bool is_settled;
};

/* Mistakes that a test plants, to see that they are found: a share that is claimed 2 % too high, polls that come 2 ms late while nobody
 * says so, and a bound that is a byte too small. */
enum plant { PLANT_NOTHING, PLANT_SHARE, PLANT_LATE, PLANT_BYTE };

struct simulation {
    const struct mix *mix;
    const struct tree *tree;
    qtree_device device;
    uint64_t now, last_event;
    uint64_t due, poll_at, free_at; /* since when a poll is due, when it comes, and when the wire is free */
    uint64_t late_most, late_planted;
    uint64_t sent_bytes, rate;
    struct agenda agenda;
    struct waiting *waiting;
    uint32_t waiting_count, waiting_room, spare;
    struct flow flows[FLOWS];
    struct measured groups[GROUPS];
    struct place places[PLACES];
    size_t place_count;
    enum plant plant;
    bool is_short; /* an allocation failed, so that the run ended */
};

/* Sets up the device by the lines of a tree, with a recorder of so many events; false if an allocation fails. */
bool simulation_open(struct simulation *sim, const struct mix *mix, size_t tree, uint32_t recorder, enum plant plant);
/* Goes on until a time, or for so many events; whether the time was reached. */
bool simulation_run(struct simulation *sim, uint64_t until, uint32_t events);
void simulation_close(struct simulation *sim);
/* How many packets will come and leave, at most: by this a program says how long a run will take. */
uint64_t simulation_packets(const struct simulation *sim);

/* Of senders.c, places.c and measured.c, for simulation.c. */
void senders_begin(struct simulation *sim);
bool senders_act(struct simulation *sim, struct event event);
void places_read(struct simulation *sim);
bool place_is_in(const struct simulation *sim, int place, int above);
void places_weigh(struct simulation *sim, bool is_last);
void place_left(struct simulation *sim, struct place *place, const struct waiting *waiting, uint32_t len);
struct bin *bin_now(const struct simulation *sim, struct measured *group);
void measured_left(struct simulation *sim, struct measured *group, uint64_t delay, uint32_t len);
/* Passes the time, and notes what is queued. */
void simulation_at(struct simulation *sim, uint64_t now);
/* Within which time this many of 10,000 packets left. */
uint64_t measured_within(const struct measured *group, unsigned of_10000);

#endif
