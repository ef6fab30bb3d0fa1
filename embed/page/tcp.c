#include "tcp.h"

static const uint64_t MS = 1000000, SECOND = 1000000000;
/* The longest time since a reduction that counts, in ms: its cube fits in 64 bits. */
enum { LONGEST = 1000000 };

static uint64_t within(uint64_t value, uint64_t low, uint64_t high) { return value < low ? low : value > high ? high : value; }

static void set_window(struct tcp *tcp, uint64_t window) {
    tcp->window = within(window, WINDOW_LEAST * WINDOW_UNIT, WINDOW_MOST * WINDOW_UNIT);
}

void tcp_begin(struct tcp *tcp, uint64_t rtt, uint64_t now) {
    *tcp = (struct tcp){ .window = WINDOW_FIRST * WINDOW_UNIT, .threshold = UINT64_MAX, .rtt = rtt, .heard_at = now };
}

bool tcp_may_send(const struct tcp *tcp) { return tcp->next - tcp->first < tcp->window / WINDOW_UNIT; }

/* The greatest number whose cube is no more than this. */
static uint64_t cube_root(uint64_t of) {
    uint64_t root = 0;
    for (uint64_t bit = UINT64_C(1) << 20; bit != 0; bit >>= 1) {
        uint64_t more = root | bit;
        root = more * more * more <= of ? more : root;
    }
    return root;
}

static void reduce(struct tcp *tcp, uint64_t serial, uint64_t now) {
    if (serial < tcp->recovered) {
        return;
    }
    tcp->recovered = tcp->next;
    tcp->most = tcp->window;
    tcp->reduced_at = now;
    set_window(tcp, tcp->window * 7 / 10);
    tcp->threshold = tcp->window;
}

/* The window that CUBIC has so long after a reduction: most + 0.4 * (t - k)^3 packets, t in seconds, where it is 0.7 * most at 0. */
static uint64_t cubic(const struct tcp *tcp, uint64_t since) {
    uint64_t k = cube_root(tcp->most * 3 / 4 * (SECOND / WINDOW_UNIT));
    uint64_t ms = within(since / MS, 0, LONGEST), away = ms < k ? k - ms : ms - k;
    uint64_t part = away * away * away / (SECOND * 10 / 4 / WINDOW_UNIT);
    return ms >= k ? tcp->most + part : part < tcp->most ? tcp->most - part : 0;
}

/* One more packet was acknowledged, and none was lost. */
static void grow(struct tcp *tcp, uint64_t now) {
    if (tcp->window < tcp->threshold) {
        set_window(tcp, tcp->window + WINDOW_UNIT);
        return;
    }
    uint64_t since = now - tcp->reduced_at;
    uint64_t target = cubic(tcp, since), additive = tcp->most * 7 / 10 + since / (tcp->rtt / 543 + 1);
    target = target > additive ? target : additive;
    uint64_t more = target > tcp->window ? (target - tcp->window) * WINDOW_UNIT / tcp->window : 0;
    set_window(tcp, tcp->window + within(more, 1, WINDOW_UNIT / 2));
}

void tcp_acknowledged(struct tcp *tcp, uint64_t serial, bool is_marked, uint64_t now) {
    if (serial < tcp->first) {
        return;
    }
    bool is_lost = serial > tcp->first;
    tcp->heard_at = now;
    tcp->first = serial + 1;
    if (is_lost || is_marked) {
        reduce(tcp, serial, now);
    } else {
        grow(tcp, now);
    }
}

void tcp_look(struct tcp *tcp, uint64_t now) {
    if (tcp->next == tcp->first || now - tcp->heard_at <= SECOND + tcp->rtt) {
        return;
    }
    tcp->threshold = within(tcp->window / 2, WINDOW_LEAST * WINDOW_UNIT, UINT64_MAX);
    set_window(tcp, WINDOW_LEAST * WINDOW_UNIT);
    tcp->first = tcp->recovered = tcp->next;
    tcp->heard_at = now;
}
