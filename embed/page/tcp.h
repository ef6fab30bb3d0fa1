/* A model of a TCP sender: its window. Slow start, then CUBIC's growth and never less than that of an additive increase that shares
 * fairly with it; a window of 0.7 times after a loss or a mark, once in a round trip. Numbers are whole, so that each machine has the same.
 * There is no handshake, no SACK, no pacing and no limit of the receiver but WINDOW_MOST; what is lost counts as sent anew at once. */
#ifndef TCP_H
#define TCP_H

#include <stdbool.h>
#include <stdint.h>

enum { WINDOW_FIRST = 10, WINDOW_LEAST = 2, WINDOW_MOST = 4096, WINDOW_UNIT = 1024 };

struct tcp {
    uint64_t window; /* in packets times WINDOW_UNIT, as the two below */
    uint64_t threshold; /* where slow start ends */
    uint64_t most; /* before the last reduction */
    uint64_t reduced_at; /* when that was, in ns */
    uint64_t rtt; /* of the packet that was acknowledged last */
    uint64_t heard_at; /* when the last acknowledgement came */
    uint64_t first, next; /* the serials of the oldest packet that is out, and of the next one */
    uint64_t recovered; /* the first serial whose loss reduces the window again */
};

void tcp_begin(struct tcp *tcp, uint64_t rtt, uint64_t now);
/* Whether another packet may go out. */
bool tcp_may_send(const struct tcp *tcp);
/* The packet with this serial is acknowledged. Nothing overtakes within a flow, so all before it that is out is lost. */
void tcp_acknowledged(struct tcp *tcp, uint64_t serial, bool is_marked, uint64_t now);
/* Takes all that is out for lost, where nothing was heard for a second and a round trip. */
void tcp_look(struct tcp *tcp, uint64_t now);

#endif
