/* The same senders over the kernel's own qdiscs, which every thread enters under one spin lock: a sender to enqueue a batch, and the
 * drainer to dequeue as many. A packet is a pointer, and its sender writes its fields. */
#include "kernel.c"
#include "senders.h"

static struct run run;
static pthread_spinlock_t lock;
static struct Qdisc *q;
static struct sk_buff *pools[MOST_SENDERS];
static struct count drained[MOST_SENDERS];
/* The places of a sender's packets in the order in which they were drained, which is not that in which they were sent if flows take turns. */
static u32 freed[MOST_SENDERS][ROOM];

/* A place for packet `sent` of a sender, of which fewer than ROOM are on their way. */
static u32 place_for(u32 sender, uint64_t sent)
{
	return sent < ROOM ? (u32)sent : freed[sender][sent % ROOM];
}

static void write_packet(struct sk_buff *skb, uint32_t flow, u32 sender, u32 place)
{
	skb->next = NULL;
	/* The kernel takes the high bits of a hash for the flow. */
	skb->hash = (((u64)flow << 32) + FLOWS - 1) / FLOWS;
	skb->mark = sender;
	skb->priority = 0;
	skb->id = place;
	skb->ect = 0;
	skb->truesize = 2304;
	qdisc_skb_cb(skb)->pkt_len = 1000;
}

static void *send_all(void *index)
{
	u32 sender = (u32)(intptr_t)index;
	uint32_t state = sender * 2654435761u + 1;
	struct sk_buff *batch[MOST_BATCH];

	while (!begun)
		sched_yield();
	for (uint64_t sent = 0; sent < run.packets; sent += run.batch) {
		while (sent + run.batch - drained[sender].value > ROOM)
			sched_yield();
		for (int i = 0; i < run.batch; i++) {
			u32 place = place_for(sender, sent + i);

			batch[i] = &pools[sender][place];
			write_packet(batch[i], next_flow(&state), sender, place);
		}
		pthread_spin_lock(&lock);
		for (int i = 0; i < run.batch; i++) {
			struct sk_buff *lost = NULL;

			q->enqueue(batch[i], q, &lost);
		}
		pthread_spin_unlock(&lock);
	}
	return NULL;
}

static void drain(const struct run *of, uint64_t packets)
{
	struct sk_buff *polled[MOST_BATCH];

	for (uint64_t got = 0; got < packets;) {
		int more = 0;

		pthread_spin_lock(&lock);
		shim_now += 1000;
		while (more < of->batch && (polled[more] = q->dequeue(q)))
			more++;
		pthread_spin_unlock(&lock);
		for (int i = 0; i < more; i++) {
			u32 sender = polled[i]->mark;

			freed[sender][drained[sender].value % ROOM] = polled[i]->id;
			drained[sender].value++;
		}
		got += more;
		if (!more)
			sched_yield();
	}
}

int main(int argc, char **argv)
{
	static const u32 hashes[1];
	static const u8 prios[1];
	static const u16 ports[1] = { FIRST_PORT };

	run = run_of(argc, argv);
	struct load load = { hashes, prios, ports, 1, run.has_flows ? FQ_CODEL : PFIFO, FLOWS, 64, 0, 100000, false };

	q = ready(&load, made_of(&load));
	pthread_spin_init(&lock, PTHREAD_PROCESS_PRIVATE);
	for (int i = 0; i < run.senders; i++) {
		pools[i] = aligned_alloc(64, sizeof(struct sk_buff) * ROOM);
		memset(pools[i], 0, sizeof(struct sk_buff) * ROOM);
	}
	measure(&run, send_all, drain);
	return 0;
}
