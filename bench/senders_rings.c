/* Senders, each with a ring, and one drainer that takes in what they offered and polls the device until nothing is queued. */
#include "senders.h"
#include "qtree.h"

static struct run run;
static struct {
	_Alignas(128) qtree_port port;
} ports[MOST_SENDERS];
static qtree_outlet outlets[MOST_SENDERS];
static qtree_device device = QTREE_CLOSED;

static void need(bool holds, const char *what)
{
	if (!holds) {
		fprintf(stderr, "senders_rings: %s\n", what);
		exit(1);
	}
}

/* Offers a batch, and waits where the ring has no place. */
static void offer(qtree_port *port, const qtree_packet *packets)
{
	if (run.batch == 1) {
		while (qtree_offer(port, packets) == QTREE_FULL)
			sched_yield();
		return;
	}
	for (size_t offered = 0, more; offered < (size_t)run.batch; offered += more) {
		qtree_offer_many(port, packets + offered, run.batch - offered, &more);
		if (!more)
			sched_yield();
	}
}

static void *send_all(void *index)
{
	qtree_port *port = &ports[(intptr_t)index].port;
	uint32_t state = (uint32_t)(intptr_t)index * 2654435761u + 1;
	qtree_packet packets[MOST_BATCH];

	for (int i = 0; i < run.batch; i++)
		packets[i] = (qtree_packet){ .len = 1000, .family = 4, .proto = 17, .src_low = 1, .dst_low = 2, .sport = 1000, .dport = 5000 };
	while (!begun)
		sched_yield();
	for (uint64_t sent = 0; sent < run.packets; sent += run.batch) {
		for (int i = 0; i < run.batch; i++) {
			packets[i].hash = next_flow(&state);
			packets[i].buf = sent + i;
		}
		offer(port, packets);
	}
	return NULL;
}

static void drain(const struct run *of, uint64_t packets)
{
	qtree_sent sent[MOST_BATCH];
	uint64_t now = 0;

	for (uint64_t polled = 0; polled < packets;) {
		size_t taken = 0, more;

		now += 1000;
		for (int i = 0; i < of->senders; i++) {
			need(qtree_take_in(&device, &outlets[i], now, 32, &more) == QTREE_DONE, "take_in");
			taken += more;
		}
		do {
			qtree_poll_bufs(&device, now, sent, MOST_BATCH, &more);
			polled += more;
		} while (more == MOST_BATCH);
		if (!taken)
			sched_yield();
	}
}

int main(int argc, char **argv)
{
	static const char PFIFO[] = "tc qdisc add dev a root handle 1: pfifo limit 100000";
	static const char FQ_CODEL[] = "tc qdisc add dev a root handle 1: fq_codel limit 100000 flows 1024 noecn";
	const char *line;
	qtree_fault fault;

	run = run_of(argc, argv);
	line = run.has_flows ? FQ_CODEL : PFIFO;
	need(qtree_open(&device, &(qtree_settings){ .txqueuelen = 1000, .mtu = 1514 }) == QTREE_DONE, "open");
	need(qtree_command(&device, (const uint8_t *)line, strlen(line), 0, &fault) == QTREE_DONE, "command");
	for (int i = 0; i < run.senders; i++)
		need(qtree_ring_open(&ports[i].port, &outlets[i], (uint32_t)i, ROOM) == QTREE_DONE, "ring");
	measure(&run, send_all, drain);
	return 0;
}
