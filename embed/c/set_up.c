/* A device that is set up by a whole file, and again when the file has changed, while packets wait; files with lines that are not done;
 * and each allocation of such a call failing in turn.
 *
 * The linker sends the library's allocations here (--wrap), and none of this program's. */
#include "check.h"
#include "qtree.h"

#include <string.h>

enum { TEXT = 4000 };

static const char home[] = "# a home uplink of a little more than 20 Mbit/s\n"
                           "tc qdisc add dev wan root handle 1: tbf rate 20mbit burst 3000 latency 50ms\n"
                           "\n"
                           "tc qdisc add dev wan parent 1:1 handle 10: prio bands 2 priomap 1 1 1 1 1 1 1 1 1 1 1 1 1 1 1 1\n"
                           "tc filter add dev wan parent 10: protocol ip prio 1 flower ip_proto udp dst_port 53 classid 10:1\n"
                           "tc qdisc add dev wan parent 10:2 handle 20: fq_codel\n";

/* The provider gives more, and DNS is not alone in front. */
static const char faster[] = "tc qdisc add dev wan root handle 1: tbf rate 30mbit burst 3000 latency 50ms\n"
                             "tc qdisc add dev wan parent 1:1 handle 10: prio bands 2 priomap 1 1 1 1 1 1 1 1 1 1 1 1 1 1 1 1\n"
                             "tc filter add dev wan parent 10: protocol ip prio 1 flower ip_proto udp dst_port 53 classid 10:1\n"
                             "tc filter add dev wan parent 10: protocol ip prio 2 flower ip_proto tcp dst_port 22 classid 10:1\n"
                             "tc qdisc add dev wan parent 10:2 handle 20: fq_codel";

/* Six lines are not done, among two that are. */
static const char wrong[] = "tc qdisc add dev wan root handle 1: prio\n"
                            "tc qdisc add dev wan root handle 2: pfifo\n"
                            "tc qdisc ad dev wan parent 1:1 pfifo\n"
                            "tc qdisc add dev wan parent 1:1 pfifo limit x\n"
                            "tc qdisc show dev wan\n"
                            "# a comment\n"
                            "tc qdisc add dev wan parent 1:9 pfifo\n"
                            "poll";

static const qtree_undone undone_of_wrong[] = {
    { { 0, 0 }, 2, QTREE_REFUSED_EXISTS },
    { { 3, QTREE_FAULT_UNKNOWN_WORD }, 3, QTREE_FAULTY },
    { { 10, QTREE_FAULT_BAD_NUMBER }, 4, QTREE_FAULTY },
    { { 0, 0 }, 5, QTREE_NO_COMMAND },
    { { 0, 0 }, 7, QTREE_REFUSED_NO_CLASS },
    { { 0, 0 }, 8, QTREE_NO_COMMAND },
};
enum { WRONG = sizeof undone_of_wrong / sizeof undone_of_wrong[0] };

/* The allocations that are still granted; none is counted below 0. */
static long granted = -1;
static unsigned long refusals;

static bool is_refused(void) {
    if (granted < 0) {
        return false;
    }
    refusals += granted == 0;
    return granted-- <= 0;
}

void *__real_malloc(size_t size);
void *__real_realloc(void *at, size_t size);
void *__real_aligned_alloc(size_t alignment, size_t size);
int __real_posix_memalign(void **at, size_t alignment, size_t size);
void *__wrap_malloc(size_t size);
void *__wrap_realloc(void *at, size_t size);
void *__wrap_aligned_alloc(size_t alignment, size_t size);
int __wrap_posix_memalign(void **at, size_t alignment, size_t size);

void *__wrap_malloc(size_t size) { return is_refused() ? NULL : __real_malloc(size); }

void *__wrap_realloc(void *at, size_t size) { return is_refused() ? NULL : __real_realloc(at, size); }

void *__wrap_aligned_alloc(size_t alignment, size_t size) {
    return is_refused() ? NULL : __real_aligned_alloc(alignment, size);
}

int __wrap_posix_memalign(void **at, size_t alignment, size_t size) {
    return is_refused() ? 12 : __real_posix_memalign(at, alignment, size);
}

static qtree_device device = QTREE_CLOSED;
static qtree_report report;

static qtree_code sets_up(const char *text, uint64_t now) {
    memset(&report, 9, sizeof report);
    return qtree_set_up(&device, (const uint8_t *)text, strlen(text), now, &report, NULL, 0);
}

static bool reports(uint64_t lines, uint64_t added, uint64_t changed, uint64_t deleted, size_t undone) {
    return report.lines == lines && report.added == added && report.changed == changed && report.deleted == deleted &&
           report.undone == undone;
}

static void open_it(uint32_t recorder) {
    CHECK(qtree_open(&device, &(qtree_settings){ 1000, recorder, 1514 }) == QTREE_DONE);
}

static uint64_t queued(void) {
    qtree_row row;
    CHECK(qtree_totals(&device, &row) == QTREE_DONE);
    return row.queued.packets;
}

static void fill(void) {
    for (uint32_t i = 0; i < 10; i++) {
        CHECK(qtree_arrive(&device, &(qtree_packet){ .len = 1000, .buf = i }, 0) == QTREE_DONE);
    }
}

/* The file is read, changed while packets wait, read twice, and changed back. No packet is lost. */
static void read_again(void) {
    open_it(0);
    CHECK(sets_up(home, 0) == QTREE_DONE && reports(6, 4, 0, 0, 0));
    fill();
    CHECK(sets_up(faster, 1000) == QTREE_DONE && reports(5, 1, 1, 0, 0) && queued() == 10);
    CHECK(sets_up(faster, 2000) == QTREE_DONE && reports(5, 0, 0, 0, 0));
    CHECK(sets_up(home, 500) == QTREE_DONE && reports(6, 0, 1, 1, 0) && queued() == 10);
    qtree_loss loss;
    CHECK(qtree_reap(&device, &loss) == QTREE_NOTHING);
    CHECK(sets_up("", 3000) == QTREE_DONE && reports(0, 0, 0, 1, 0) && queued() == 0);
    for (uint32_t i = 0; i < 10; i++) {
        CHECK(qtree_reap(&device, &loss) == QTREE_DONE && loss.packet.buf == i && loss.cause == QTREE_LOST_PURGED);
    }
    qtree_close(&device);
}

static void check_undone(const qtree_undone *undone, size_t count) {
    for (size_t i = 0; i < count; i++) {
        const qtree_undone *wanted = &undone_of_wrong[i];
        CHECK(undone[i].line == wanted->line && undone[i].code == wanted->code);
        CHECK(undone[i].fault.word == wanted->fault.word && undone[i].fault.number == wanted->fault.number);
    }
}

/* A sentence on each line is had from its text. */
static void explain(const qtree_undone *undone) {
    const char *line = wrong;
    for (uint64_t number = 1; number < undone->line; number++) {
        line = strchr(line, '\n') + 1;
    }
    uint8_t text[TEXT];
    size_t needed;
    CHECK(qtree_explain((const uint8_t *)line, strcspn(line, "\n"), undone->line, undone->code, &undone->fault, text, sizeof text,
                        &needed) == QTREE_DONE);
    CHECK(needed > 40 && memcmp(text, "line ", 5) == 0);
}

/* All lines that are not done are counted, and as many are told as there is room for. */
static void wrong_lines(void) {
    open_it(0);
    CHECK(sets_up(home, 0) == QTREE_DONE);
    fill();
    const uint8_t *text = (const uint8_t *)wrong;
    qtree_undone undone[WRONG + 2];
    for (size_t room = 0; room <= WRONG + 2; room++) {
        memset(undone, 9, sizeof undone);
        CHECK(qtree_set_up(&device, text, strlen(wrong), 7, &report, undone, room) == QTREE_UNDONE);
        CHECK(reports(8, 0, 0, 0, WRONG) && queued() == 10);
        check_undone(undone, room < WRONG ? room : WRONG);
        const unsigned char *rest = (const unsigned char *)(undone + (room < WRONG ? room : WRONG));
        for (const unsigned char *at = rest; at < (const unsigned char *)(undone + WRONG + 2); at++) {
            CHECK(*at == 9);
        }
    }
    for (size_t i = 0; i < WRONG; i++) {
        explain(&undone[i]);
    }
    CHECK(sets_up(home, 0) == QTREE_DONE && reports(6, 0, 0, 0, 0));
    qtree_close(&device);
}

/* What is done is recorded and noted as commands are. */
static void noted(void) {
    open_it(100);
    CHECK(qtree_keep_last(&device, 3) == QTREE_DONE);
    CHECK(sets_up(home, 1000) == QTREE_DONE && sets_up(wrong, 2000) == QTREE_UNDONE && sets_up(home, 3000) == QTREE_DONE);
    uint64_t events, noted;
    size_t recorded, kept;
    CHECK(qtree_events(&device, &events, &recorded) == QTREE_DONE && events == 4 && recorded == 4);
    CHECK(qtree_last_noted(&device, &noted, &kept) == QTREE_DONE && noted == 4 && kept == 3);
    for (size_t i = 0; i < kept; i++) {
        qtree_event event;
        uint8_t last[TEXT], first[TEXT];
        size_t needed, needs;
        CHECK(qtree_last_event(&device, i, &event) == QTREE_DONE && event.kind == QTREE_COMMANDED && event.moment == 1000);
        CHECK(qtree_last_line(&device, i, last, TEXT, &needed) == QTREE_DONE);
        CHECK(qtree_recorded_line(&device, i + 1, first, TEXT, &needs) == QTREE_DONE);
        CHECK(needed == needs && memcmp(last, first, needed) == 0);
    }
    qtree_close(&device);
}

enum { CLASSES = 255, FILTERS = 256, LINES = 1 + CLASSES + FILTERS };

static char largest[2 * LINES * 100];

/* A file of a tree as large as one may be. Its last class has this quantum, and its last filter leads to this class. */
static void write_largest(uint32_t quantum, uint32_t class) {
    char *at = largest + sprintf(largest, "tc qdisc add dev wan root handle 1: drr\n");
    for (uint32_t i = 1; i <= CLASSES; i++) {
        at += sprintf(at, "tc class add dev wan parent 1: classid 1:%x drr quantum %u\n", i, i < CLASSES ? 1500 : quantum);
    }
    for (uint32_t i = 1; i <= FILTERS; i++) {
        const uint32_t to = i < FILTERS ? i : class;
        at += sprintf(at, "tc filter add dev wan parent 1: prio %u flower src_port %u classid 1:%x\n", i, i, to);
    }
}

/* A tree may have 256 nodes, and a node 256 filters: a file that has them all is set up, and read again, by what differs alone. */
static void largest_tree(void) {
    open_it(0);
    write_largest(1500, 1);
    CHECK(sets_up(largest, 0) == QTREE_DONE && reports(LINES, LINES, 0, 0, 0));
    for (uint32_t i = 1; i <= FILTERS; i++) {
        CHECK(qtree_arrive(&device, &(qtree_packet){ .len = 1000, .sport = (uint16_t)i }, 0) == QTREE_DONE);
    }
    CHECK(sets_up(largest, 0) == QTREE_DONE && reports(LINES, 0, 0, 0, 0) && queued() == FILTERS);
    write_largest(3000, 2);
    CHECK(sets_up(largest, 0) == QTREE_DONE && reports(LINES, 1, 1, 1, 0) && queued() == FILTERS);
    qtree_close(&device);
}

/* A tree may have eight levels: what is at the end of the lowest stays as well. */
static void deepest_tree(void) {
    char text[TEXT];
    open_it(0);
    for (uint32_t limit = 100; limit <= 101; limit++) {
        char *at = text + sprintf(text, "tc qdisc add dev wan root handle 1: prio\n");
        for (uint32_t level = 2; level < 8; level++) {
            at += sprintf(at, "tc qdisc add dev wan parent %u:2 handle %u: prio\n", level - 1, level);
        }
        sprintf(at, "tc qdisc add dev wan parent 7:2 handle 8: pfifo limit %u\n", limit);
        CHECK(sets_up(text, 0) == QTREE_DONE && queued() == (limit == 100 ? 0 : 10));
        CHECK(limit == 100 ? reports(8, 8, 0, 0, 0) : reports(8, 0, 1, 0, 0));
        fill();
    }
    qtree_close(&device);
}

/* A tree of 256 nodes, as many as there may be: classes of a drr, and a prio with so many bands below the first of them. */
static void write_full(uint32_t bands) {
    char *at = largest + sprintf(largest, "tc qdisc add dev wan root handle 1: drr\n");
    for (uint32_t i = 1; i <= CLASSES - bands; i++) {
        at += sprintf(at, "tc class add dev wan parent 1: classid 1:%x drr quantum 1500\n", i);
    }
    if (bands > 0) {
        at += sprintf(at, "tc qdisc add dev wan parent 1:1 handle 2: prio bands %u priomap 0 0 0 0 0 0 0 0 0 0 0 0 0 0 0 0\n", bands);
    }
    sprintf(at, "tc filter add dev wan parent 1: prio 1 flower classid 1:2\n");
}

/* Where the tree is full before and after, what goes is deleted before anything is added, and what grows grows last. */
static void full_tree(void) {
    static const struct {
        uint32_t bands, added, changed, deleted;
    } steps[] = { { 0, 257, 0, 0 }, { 16, 1, 0, 16 }, { 2, 14, 1, 0 }, { 16, 0, 1, 14 }, { 2, 14, 1, 0 }, { 0, 2, 0, 1 } };
    open_it(0);
    for (size_t i = 0; i < sizeof steps / sizeof steps[0]; i++) {
        write_full(steps[i].bands);
        CHECK(sets_up(largest, 0) == QTREE_DONE && queued() == (i == 0 ? 0 : 10));
        CHECK(report.added == steps[i].added && report.changed == steps[i].changed && report.deleted == steps[i].deleted);
        if (i == 0) {
            fill();
        }
    }
    qtree_close(&device);
}

/* Two nodes with 256 filters each, of which the last one's has this number. */
static void write_filters(uint32_t port) {
    char *at = largest + sprintf(largest, "tc qdisc add dev wan root handle 1: prio\ntc qdisc add dev wan parent 1:1 handle 2: prio\n");
    for (uint32_t i = 1; i <= 2 * FILTERS; i++) {
        const uint32_t node = i <= FILTERS ? 1 : 2;
        at += sprintf(at, "tc filter add dev wan parent %u: prio %u flower src_port %u classid %u:1\n", node, i, i < 2 * FILTERS ? i : port, node);
    }
}

/* Each node may have 256 filters: those of the second are compared like those of the first. */
static void filters_of_two_nodes(void) {
    open_it(0);
    write_filters(1000);
    CHECK(sets_up(largest, 0) == QTREE_DONE && reports(2 + 2 * FILTERS, 2 + 2 * FILTERS, 0, 0, 0));
    fill();
    CHECK(sets_up(largest, 0) == QTREE_DONE && reports(2 + 2 * FILTERS, 0, 0, 0, 0));
    write_filters(1001);
    CHECK(sets_up(largest, 0) == QTREE_DONE && reports(2 + 2 * FILTERS, 1, 0, 1, 0) && queued() == 10);
    qtree_close(&device);
}

/* A file may have any number of lines: comments of a megabyte, a line that is done, and a thousand that are not. */
static void longest_file(void) {
    enum { COMMENTS = 20000, LENGTH = 50, MANY = 1000 };
    static char text[COMMENTS * LENGTH + MANY * 20];
    static qtree_undone undone[MANY];
    char *at = text;
    for (size_t i = 0; i < COMMENTS; i++) {
        memset(at, '#', LENGTH - 1);
        at[LENGTH - 1] = '\n';
        at += LENGTH;
    }
    open_it(0);
    sprintf(at, "tc qdisc add dev wan root handle 1: drr\n");
    CHECK(sets_up(text, 0) == QTREE_DONE && reports(COMMENTS + 1, 1, 0, 0, 0));
    for (size_t i = 0; i < MANY; i++) {
        at += sprintf(at, "poll\n");
    }
    CHECK(qtree_set_up(&device, (const uint8_t *)text, strlen(text), 0, &report, undone, MANY) == QTREE_UNDONE);
    CHECK(reports(COMMENTS + MANY, 0, 0, 0, MANY));
    for (size_t i = 0; i < MANY; i++) {
        CHECK(undone[i].line == COMMENTS + 1 + i && undone[i].code == QTREE_NO_COMMAND);
    }
    qtree_close(&device);
}

static void answers(void) {
    CHECK(sets_up(home, 0) == QTREE_IS_CLOSED && reports(0, 0, 0, 0, 0));
    open_it(0);
    CHECK(sets_up(home, QTREE_MOMENT_MAX + 1) == QTREE_OUT_OF_RANGE && reports(0, 0, 0, 0, 0));
    CHECK(sets_up(home, QTREE_MOMENT_MAX) == QTREE_DONE && reports(6, 4, 0, 0, 0));
    qtree_close(&device);
}

/* One allocation after another fails. What was done before stays, and the same call does the rest. */
static void without_memory(const char *before, const char *after) {
    for (long grants = 0;; grants++) {
        open_it(0);
        CHECK(sets_up(before, 0) == QTREE_DONE);
        unsigned long had = refusals;
        granted = grants;
        qtree_code code = sets_up(after, 1);
        granted = -1;
        CHECK(code == (refusals == had ? QTREE_DONE : QTREE_MEMORY));
        uint64_t done = report.added + report.changed + report.deleted;
        CHECK(sets_up(after, 2) == QTREE_DONE);
        CHECK(code == QTREE_MEMORY || report.added + report.changed + report.deleted == 0);
        CHECK(code == QTREE_DONE || done + report.added + report.changed + report.deleted > 0);
        qtree_close(&device);
        if (code == QTREE_DONE) {
            return;
        }
    }
}

int main(void) {
    read_again();
    wrong_lines();
    noted();
    largest_tree();
    deepest_tree();
    full_tree();
    filters_of_two_nodes();
    longest_file();
    answers();
    without_memory("", home);
    without_memory(home, faster);
    without_memory(faster, "tc qdisc add dev wan root handle 1: drr\ntc class add dev wan parent 1: classid 1:1 drr quantum 1500\n");
    printf("set_up: files are read again while packets wait; %lu allocations failed\n", refusals);
    return 0;
}
