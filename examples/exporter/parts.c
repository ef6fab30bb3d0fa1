/* What the exporter counts and writes, of devices whose time this program sets: it prints the metrics, which parts.out has. */
#include "check.h"
#include "metrics.h"

#include <string.h>

static void run(qtree_device *device, const char *line) { CHECK(qtree_run(device, line, 0, NULL) == QTREE_DONE); }

static void arrives(qtree_device *device, uint16_t port, uint16_t len, uint64_t now) {
    const qtree_packet packet = { .len = len, .dport = port, .hash = port };
    CHECK(qtree_arrive(device, &packet, now) != QTREE_OUT_OF_RANGE);
}

/* How many were counted below each bound, as digits. */
static void is_counted(const struct lateness *it, const char *wanted) {
    for (size_t at = 0; at <= LATENESS_BOUNDS; at++) {
        CHECK(it->by_bound[at] == (uint64_t)(wanted[at] - '0'));
    }
}

/* A poll that is as late as a bound counts below it, and one as late as is allowed is not too late. */
static void lateness_by_bounds(void) {
    struct lateness it = { .due = UINT64_MAX, .allowed = 10000 };
    lateness_count(&it, 5);
    CHECK(it.sum == 0 && it.greatest == 0);
    is_counted(&it, "0000000000");
    lateness_note(&it, 1000, 0);
    lateness_count(&it, 999);
    is_counted(&it, "0000000000");
    lateness_count(&it, 1000);
    lateness_count(&it, 2000);
    lateness_count(&it, 2001);
    lateness_count(&it, 11000);
    CHECK(it.above == 0);
    lateness_count(&it, 11001);
    lateness_count(&it, 100001000);
    lateness_count(&it, 100001001);
    is_counted(&it, "2210000011");
    CHECK(it.above == 3 && it.greatest == 100000001 && it.sum == 1000 + 1001 + 10000 + 10001 + 100000000 + 100000001);
}

/* What was due stays due until nothing is; a time that is ahead gives way to the newest one. */
static void what_is_due(void) {
    struct lateness it = { .due = UINT64_MAX };
    lateness_note(&it, 50, 10);
    CHECK(it.due == 50);
    lateness_note(&it, 40, 20);
    CHECK(it.due == 40);
    lateness_note(&it, 30, 30);
    CHECK(it.due == 30);
    lateness_note(&it, 35, 36);
    CHECK(it.due == 30);
    lateness_note(&it, 70, 60);
    CHECK(it.due == 70);
    lateness_note(&it, 75, 75);
    CHECK(it.due == 75 - 5);
    lateness_note(&it, UINT64_MAX, 80);
    CHECK(it.due == UINT64_MAX);
}

/* What the classes allow: the burst of the tbf above them has room for it. */
static void what_is_allowed(qtree_device *device) {
    struct lateness it;
    uint64_t late;
    lateness_begin(&it, device);
    for (uint16_t minor = 1; minor <= 3; minor++) {
        CHECK(qtree_lateness(device, QTREE_CLASS, 2, minor, &late) == QTREE_DONE && late == it.allowed);
    }
    CHECK(it.allowed == (3028 - 1514) * 1000 - 1 && it.due == UINT64_MAX);
}

static void shaped(qtree_device *device) {
    static const char *const lines[] = {
        "tc qdisc add dev wan root handle 1: tbf rate 8mbit burst 3028 limit 100000",
        "tc qdisc add dev wan parent 1:1 handle 2: drr",
        "tc class add dev wan parent 2: classid 2:1 drr quantum 1500",
        "tc class add dev wan parent 2: classid 2:2 drr quantum 3000",
        "tc class add dev wan parent 2: classid 2:3 drr quantum 1514",
        "tc qdisc add dev wan parent 2:2 handle a: fq_codel",
        "tc qdisc add dev wan parent 2:3 handle b: bfifo limit 100",
        "tc filter add dev wan parent 2: prio 1 flower dst_port 1 classid 2:1",
        "tc filter add dev wan parent 2: prio 1 flower dst_port 2 classid 2:2",
        "tc filter add dev wan parent 2: prio 1 flower dst_port 3 classid 2:3",
    };
    CHECK(qtree_open(device, &(qtree_settings)QTREE_DEFAULTS) == QTREE_DONE);
    for (size_t at = 0; at < sizeof lines / sizeof lines[0]; at++) {
        run(device, lines[at]);
    }
}

/* Packets wait in two classes since different times, one is sent, and some are lost. */
static void used(qtree_device *device, struct losses *losses) {
    qtree_sent sent;
    qtree_loss loss;
    arrives(device, 1, 1000, 0);
    arrives(device, 1, 900, 100);
    arrives(device, 2, 700, 1000);
    arrives(device, 2, 701, 2000);
    arrives(device, 3, 500, 3000);
    arrives(device, 4, 60, 3000);
    arrives(device, 1, 1515, 3000);
    CHECK(qtree_poll_buf(device, 5000, &sent) == QTREE_DONE && sent.len == 1000);
    while (qtree_reap(device, &loss) == QTREE_DONE) {
        losses->by_cause[loss.cause].packets++;
        losses->by_cause[loss.cause].bytes += loss.packet.len;
    }
    losses->by_cause[9] = (qtree_count){ 1, 2 };
}

/* A tree may have any number of classes. */
static void many_classes(void) {
    qtree_device device = QTREE_CLOSED;
    static struct tree tree;
    char line[100];
    CHECK(tree_read(&tree, &device, 0) == QTREE_IS_CLOSED && qtree_open(&device, &(qtree_settings)QTREE_DEFAULTS) == QTREE_DONE);
    run(&device, "tc qdisc add dev wan root handle 1: drr");
    for (unsigned minor = 1; minor <= 40; minor++) {
        snprintf(line, sizeof line, "tc class add dev wan parent 1: classid 1:%x drr quantum %u", minor, 1000 + minor);
        run(&device, line);
    }
    CHECK(tree_read(&tree, &device, 0) == QTREE_DONE && tree.qdisc_count == 41 && tree.class_count == 40 && tree.device_wait == NOBODY_WAITS);
    for (unsigned at = 0; at < 40; at++) {
        CHECK(tree.classes[at].minor == at + 1 && tree.classes[at].quantum == 1001 + at);
    }
    tree_free(&tree);
    qtree_close(&device);
}

int main(void) {
    static struct tree trees[2];
    static struct losses losses[2];
    struct lateness late[2];
    qtree_device devices[2] = { QTREE_CLOSED, QTREE_CLOSED };
    shaped(&devices[0]);
    CHECK(qtree_open(&devices[1], &(qtree_settings)QTREE_DEFAULTS) == QTREE_DONE);
    lateness_by_bounds();
    what_is_due();
    what_is_allowed(&devices[0]);
    many_classes();
    used(&devices[0], &losses[0]);
    losses[1].by_cause[QTREE_LOST_PURGED] = (qtree_count){ 3, 4000 };
    for (int which = 0; which < 2; which++) {
        lateness_begin(&late[which], &devices[which]);
        lateness_note(&late[which], 4000, 4000);
        lateness_count(&late[which], 5000 + 10000000 * (uint64_t)which);
        CHECK(tree_read(&trees[which], &devices[which], 1000000000) == QTREE_DONE);
    }
    const struct source sources[] = { { "wan", &trees[0], &losses[0], &late[0] }, { "a \"b\" \\ c\nd", &trees[1], &losses[1], &late[1] } };
    metrics_write(stdout, sources, 2);
    for (int which = 0; which < 2; which++) {
        tree_free(&trees[which]);
        qtree_close(&devices[which]);
    }
    return 0;
}
