/* The workloads of src/devices.rs, and those of embed/c/bench.c, over the kernel's own qdiscs, in user space. `kpeer.h` is that of a kernel bench, a folder
 * beside this repository (docs/PERFORMANCE.md): it puts the source files of Linux's qdiscs under a thin stand-in for the rest
 * of the kernel. A packet is a pointer here. Its fields are written at each arrival, since buffers go round. */
#include "kpeer.h"

/* As `Load` in src/kernel.rs. */
struct load {
	const u32 *hashes;
	const u8 *prios;
	const u16 *ports;
	u32 packets, shape, flows, drop_batch, queued, limit;
	bool ecn;
};
enum { PFIFO, PRIO, TBF, DRR_OF_PFIFOS, FQ_CODEL, DRR_OF_FQ_CODELS, DEEP, SCHED, SCHED_OF_16, PRIO_OF_16 };

#define BUFFERS (1 << 20)
#define CLASSES 8
#define QUEUES 4
#define FIRST_PORT 5000
#define STEP 100
static struct sk_buff *buffers;
static struct sk_buff **spare;
static u32 spares;

static struct net_device dev;
static struct attrs at;

static inline void give_back(struct sk_buff *skb)
{
	spare[spares++] = skb;
}

static void shim_lost(struct sk_buff *skb)
{
	give_back(skb);
}

/* The filter of a drr: it reads the class from a mark, or names the first one. */
struct filter {
	struct tcf_proto proto;
	bool by_mark;
	u32 major;
	unsigned long class_of[16];
};
static struct filter filters[32];
static u32 filters_used;

static int filtered(struct sk_buff *skb, struct tcf_proto *tp, struct tcf_result *res)
{
	const struct filter *filter = container_of(tp, struct filter, proto);
	u32 at = filter->by_mark ? skb->mark : 0;

	res->class = filter->class_of[at];
	res->classid = filter->major | (at + 1);
	return 0;
}

static struct Qdisc *make(const struct Qdisc_ops *ops, u32 parent, u32 handle, struct nlattr *options)
{
	int error;
	struct Qdisc *q = shim_create(&dev, ops, parent, handle, options, &error, NULL);

	if (!q) {
		fprintf(stderr, "kernel.c: %s: %d\n", ops->id, error);
		exit(1);
	}
	return q;
}

static struct nlattr *options_of(const void *bytes, int len)
{
	memcpy(at.b + 4, bytes, len);
	at.len = 4 + len;
	return at_end(&at);
}

static struct Qdisc *fq_codel(const struct load *load, u32 parent, u32 handle)
{
	at_start(&at);
	at_u32(&at, TCA_FQ_CODEL_LIMIT, load->limit);
	/* 32 MB by default, which 100,000 packets are above. */
	at_u32(&at, TCA_FQ_CODEL_MEMORY_LIMIT, 1u << 31);
	at_u32(&at, TCA_FQ_CODEL_FLOWS, load->flows);
	at_u32(&at, TCA_FQ_CODEL_ECN, load->ecn);
	at_u32(&at, TCA_FQ_CODEL_DROP_BATCH_SIZE, load->drop_batch);
	return make(&fq_codel_qdisc_ops, parent, handle, at_end(&at));
}

static struct Qdisc *pfifo(void)
{
	struct tc_fifo_qopt options = { 1000000 };

	return make(&pfifo_qdisc_ops, TC_H_ROOT, 0x10000, options_of(&options, sizeof(options)));
}

static struct Qdisc *prio(u32 parent, u32 handle, bool deep)
{
	struct tc_prio_qopt options = { 3, { 1, 2, 2, 2, 1, 2, 0, 0, 1, 1, 1, 1, 1, 1, 1, 1 } };

	if (deep)
		memset(options.priomap, 0, sizeof(options.priomap));
	return make(&prio_qdisc_ops, parent, handle, options_of(&options, sizeof(options)));
}

/* Sixteen bands, of which all packets come to the last. */
static struct Qdisc *wide(void)
{
	struct tc_prio_qopt options = { 16 };

	memset(options.priomap, 15, sizeof(options.priomap));
	return make(&prio_qdisc_ops, TC_H_ROOT, 0x10000, options_of(&options, sizeof(options)));
}

/* Seven prios, each in the first band of the one above. */
static struct Qdisc *path(void)
{
	struct Qdisc *root = prio(TC_H_ROOT, 0x10000, true), *above = root, *old;

	for (u32 major = 2; major <= 7; major++) {
		struct Qdisc *q = prio(((major - 1) << 16) | 1, major << 16, true);

		prio_graft(above, 1, q, &old, NULL);
		qdisc_put(old);
		above = q;
	}
	return root;
}

/* 34 Gbit/s, at which nothing waits. */
static struct Qdisc *tbf(u32 parent, u32 handle)
{
	struct tc_tbf_qopt options = { 0 };

	options.limit = 1u << 30;
	options.rate.rate = 0xffffffff;
	options.rate.linklayer = TC_LINKLAYER_ETHERNET;
	at_start(&at);
	at_u32(&at, TCA_TBF_BURST, 1u << 30);
	at_put(&at, TCA_TBF_PARMS, &options, sizeof(options));
	return make(&tbf_qdisc_ops, parent, handle, at_end(&at));
}

/* A drr of so many classes, whose one filter reads the class from a mark or names the first. */
static struct Qdisc *drr(u32 parent, u32 handle, u32 classes, bool by_mark)
{
	struct Qdisc *q = make(&drr_qdisc_ops, parent, handle, NULL);
	struct filter *filter = &filters[filters_used++];
	struct nlattr *attributes[16] = { 0 };
	struct drr_sched *sched = qdisc_priv(q);

	*filter = (struct filter){ .proto.classify = filtered, .by_mark = by_mark, .major = handle };
	for (u32 i = 0; i < classes; i++) {
		at_start(&at);
		attributes[TCA_OPTIONS] = at_end(&at);
		if (drr_change_class(q, handle + 1 + i, handle, attributes, &filter->class_of[i], NULL))
			exit(1);
	}
	sched->filter_list = &filter->proto;
	return q;
}

static void graft_class(struct Qdisc *drr_qdisc, u32 class, struct Qdisc *q)
{
	struct drr_sched *sched = qdisc_priv(drr_qdisc);
	const struct filter *filter = container_of(sched->filter_list, struct filter, proto);
	struct Qdisc *old;

	drr_graft_class(drr_qdisc, filter->class_of[class], q, &old, NULL);
	qdisc_put(old);
}

static struct Qdisc *drr_of_eight(const struct load *load, bool has_flows)
{
	struct Qdisc *q = drr(TC_H_ROOT, 0x10000, CLASSES, true);

	for (u32 i = 0; has_flows && i < CLASSES; i++)
		graft_class(q, i, fq_codel(load, 0x10001 + i, (0x10 + i) << 16));
	return q;
}

static void graft_tbf(struct Qdisc *above, struct Qdisc *q)
{
	struct Qdisc *old;

	tbf_graft(above, 1, q, &old, NULL);
	qdisc_put(old);
}

/* The tree of DPDK's rte_sched: a tbf, a drr of pipes, and for each a tbf, a prio of four traffic classes and a drr of four queues. */
static struct Qdisc *sched(u32 pipes)
{
	struct Qdisc *root = tbf(TC_H_ROOT, 0x10000), *port = drr(0x10001, 0x20000, pipes, true), *old;

	graft_tbf(root, port);
	for (u32 i = 0; i < pipes; i++) {
		struct tc_prio_qopt options = { 4, { 0, 1, 2, 3, 3, 3, 3, 3, 3, 3, 3, 3, 3, 3, 3, 3 } };
		u32 major = 16 + 3 * i;
		struct Qdisc *shaper = tbf(0x20001 + i, major << 16);
		struct Qdisc *bands = make(&prio_qdisc_ops, (major << 16) + 1, (major + 1) << 16, options_of(&options, sizeof(options)));

		graft_class(port, i, shaper);
		graft_tbf(shaper, bands);
		prio_graft(bands, 4, drr(((major + 1) << 16) + 4, (major + 2) << 16, QUEUES, false), &old, NULL);
		qdisc_put(old);
	}
	return root;
}

static struct Qdisc *tree(const struct load *load)
{
	switch (load->shape) {
	case PFIFO: return pfifo();
	case PRIO: return prio(TC_H_ROOT, 0x10000, false);
	case TBF: return tbf(TC_H_ROOT, 0x10000);
	case DRR_OF_PFIFOS: return drr_of_eight(load, false);
	case FQ_CODEL: return fq_codel(load, TC_H_ROOT, 0x10000);
	case DRR_OF_FQ_CODELS: return drr_of_eight(load, true);
	case SCHED: return sched(1);
	case SCHED_OF_16: return sched(16);
	case PRIO_OF_16: return wide();
	default: return path();
	}
}

/* A packet, made before: what is written into a buffer when it arrives. */
struct made { u32 hash, mark, prio, id; };

static struct made *made_of(const struct load *load)
{
	struct made *made = malloc(load->packets * sizeof(*made));
	u64 flows = load->flows;

	for (u32 i = 0; i < load->packets; i++) {
		u64 flow = load->hashes[i];

		/* The kernel takes the high bits of a hash for the flow. */
		made[i].hash = ((flow << 32) + flows - 1) / flows;
		made[i].mark = load->ports[i] - FIRST_PORT;
		made[i].prio = load->prios[i];
		made[i].id = i;
	}
	return made;
}

static inline u64 with(u64 sum, u64 value)
{
	return (sum << 5 | sum >> 59) + value;
}

static inline struct sk_buff *written(const struct made *made, bool ecn)
{
	struct sk_buff *skb = spare[--spares];

	skb->next = NULL;
	skb->hash = made->hash;
	skb->mark = made->mark;
	skb->priority = made->prio;
	skb->id = made->id;
	skb->ect = ecn ? 2 : 0;
	skb->truesize = 2304;
	qdisc_skb_cb(skb)->pkt_len = 1000;
	return skb;
}

static inline u64 summary(const struct sk_buff *skb)
{
	return skb->id ^ (u64)skb->hash << 16 ^ (u64)qdisc_skb_cb(skb)->pkt_len << 32 ^ (u64)skb->ect << 48;
}

static inline u64 arrive(struct Qdisc *q, const struct made *made, bool ecn)
{
	struct sk_buff *to_free = NULL;
	int fate = q->enqueue(written(made, ecn), q, &to_free);

	while (unlikely(to_free)) {
		struct sk_buff *next = to_free->next;

		give_back(to_free);
		to_free = next;
	}
	return fate;
}

static inline u64 poll(struct Qdisc *q)
{
	struct sk_buff *skb = q->dequeue(q);
	u64 value;

	if (!skb)
		return 1ull << 60;
	value = summary(skb);
	give_back(skb);
	return value;
}

/* The tree with the packets that are queued at first. */
static struct Qdisc *ready(const struct load *load, const struct made *made)
{
	struct Qdisc *q;

	if (!buffers) {
		buffers = aligned_alloc(64, sizeof(*buffers) * BUFFERS);
		memset(buffers, 0, sizeof(*buffers) * BUFFERS);
		spare = malloc(sizeof(*spare) * BUFFERS);
	}
	for (spares = 0; spares < BUFFERS; spares++)
		spare[spares] = &buffers[BUFFERS - 1 - spares];
	shim_device(&dev, 1514, 200000);
	shim_now = 1000000000;
	filters_used = 0;
	q = tree(load);
	for (u32 i = 0; i < load->queued; i++) {
		shim_now += STEP;
		arrive(q, &made[i % load->packets], load->ecn);
	}
	return q;
}

u64 kernel_pairs(const struct load *load, u32 step, u32 passes)
{
	struct made *made = made_of(load);
	struct Qdisc *q = ready(load, made);
	u64 sum = 1;

	for (u32 pass = 0; pass < passes; pass++)
		for (u32 i = 0; i < load->packets; i++) {
			shim_now += step;
			sum = with(sum, arrive(q, &made[i], load->ecn));
			sum = with(sum, poll(q));
		}
	qdisc_put(q);
	free(made);
	return sum;
}

u64 kernel_losses(const struct load *load, const u32 *waits, size_t polls)
{
	struct made *made = made_of(load);
	struct Qdisc *q = ready(load, made);
	u64 sum = 1;
	u32 next = 0;

	for (size_t i = 0; i < polls; i++) {
		shim_now += waits[i];
		sum = with(sum, arrive(q, &made[next], load->ecn));
		sum = with(sum, arrive(q, &made[next + 1], load->ecn));
		sum = with(sum, poll(q));
		next = next + 3 < load->packets ? next + 2 : 0;
	}
	qdisc_put(q);
	free(made);
	return sum;
}

u64 kernel_harness(const struct load *load, u32 passes)
{
	struct made *made = made_of(load);
	struct Qdisc *q = ready(load, made);
	u64 sum = 1;

	for (u32 pass = 0; pass < passes; pass++)
		for (u32 i = 0; i < load->packets; i++) {
			struct sk_buff *skb = written(&made[i], load->ecn);

			shim_now += STEP;
			sum = with(sum, shim_now);
			sum = with(sum, summary(skb));
			give_back(skb);
		}
	qdisc_put(q);
	free(made);
	return sum;
}

/* A tree with its queue, which calls from C are measured beside: embed/c/bench_kernel.h. */
struct opened {
	struct Qdisc *q;
	struct made *made;
	u32 packets, next;
	bool ecn;
};

void *bench_kernel_open(const struct load *load)
{
	struct opened *opened = malloc(sizeof(*opened));

	*opened = (struct opened){ .made = made_of(load), .packets = load->packets, .next = load->queued % load->packets, .ecn = load->ecn };
	opened->q = ready(load, opened->made);
	return opened;
}

u64 bench_kernel_run(void *of, u32 step, u32 packets, u32 burst)
{
	struct opened *opened = of;
	u64 sum = 1;

	for (u32 done = 0; done + burst <= packets; done += burst) {
		shim_now += (u64)step * burst;
		for (u32 i = 0; i < burst; i++) {
			sum = with(sum, arrive(opened->q, &opened->made[opened->next], opened->ecn));
			opened->next = (opened->next + 1) % opened->packets;
		}
		for (u32 i = 0; i < burst; i++)
			sum = with(sum, poll(opened->q));
	}
	return sum;
}

void bench_kernel_close(void *of)
{
	struct opened *opened = of;

	qdisc_put(opened->q);
	free(opened->made);
	free(opened);
}
