/* A queue between tinc's routing and its encryption: what tinc calls of it. */
#ifndef QUEUE_H
#define QUEUE_H

#include <stdbool.h>
#include <sys/select.h>
#include <time.h>

struct node_t;
struct vpn_packet_t;

/* Sets the queue up by the file that QueueFile names; where it is set up already, by the file as it is now. False where the daemon cannot
 * start with it. Without QueueFile there is no queue. */
bool queue_set_up(void);

/* Says what became of every packet, and closes the device. */
void queue_close(void);

/* Whether the queue has taken the packet, by a copy; if not, the caller goes on with it. */
bool queue_takes(const struct node_t *to, const struct vpn_packet_t *packet);

/* Before the daemon sleeps: for how long at most, and until which socket takes a packet. */
void queue_before_sleep(struct timespec *longest, fd_set *writable);

/* After it: sends on what may go now. */
void queue_run(void);

/* The node is deleted: the packets that wait for it go nowhere. */
void queue_forget(const struct node_t *node);

/* Has the next queue_run show the counters; a signal handler may call it. */
void queue_show_soon(void);

#endif
