#include "answers.h"

#include <inttypes.h>
#include <stdlib.h>
#include <string.h>

/* What is read of a direction between two of its turns. */
struct reading {
    struct tree tree;
    struct losses losses;
    struct lateness lateness;
    bool is_read;
};

static void read_all(struct direction *way, void *with) {
    struct reading *reading = with;
    reading->is_read = tree_read(&reading->tree, &way->device, clock_now()) == QTREE_DONE;
    reading->losses = way->losses;
    reading->lateness = way->lateness;
}

static void show(struct direction *way, void *with) {
    FILE *file = with;
    for (uint32_t what = QTREE_SHOW_COUNTERS; what <= QTREE_SHOW_FILTERS; what++) {
        size_t room = 0, len = 0;
        qtree_show(&way->device, what, NULL, 0, &room);
        uint8_t *text = malloc(room + 1);
        if (text != NULL && qtree_show(&way->device, what, text, room, &len) == QTREE_DONE) {
            fwrite(text, 1, len, file);
        }
        free(text);
    }
}

/* The threads write to memory, so that none waits for a slow reader. */
static void say_of_both(struct wire *wire, FILE *file, void (*act)(struct direction *way, void *with)) {
    for (int i = 0; i < 2; i++) {
        char *text = NULL;
        size_t len = 0;
        FILE *memory = open_memstream(&text, &len);
        if (memory != NULL) {
            direction_ask(&wire->both[i], act, memory);
            fclose(memory);
            fprintf(file, "%s to %s\n%s", wire->both[i].from, wire->both[i].to, text);
        }
        free(text);
    }
}

void answer_show(struct wire *wire, FILE *file) { say_of_both(wire, file, show); }

static double ms(uint64_t ns) { return (double)ns / 1e6; }

static void promise_class(struct direction *way, const qtree_class_view *class, FILE *file) {
    qtree_promise promise;
    uint64_t late = 0;
    if (qtree_service(&way->device, QTREE_CLASS, class->major, class->minor, &promise) != QTREE_DONE) {
        fprintf(file, "  class %x:%x: nothing is promised\n", class->major, class->minor);
        return;
    }
    qtree_lateness(&way->device, QTREE_CLASS, class->major, class->minor, &late);
    if (promise.link == 0) {
        fprintf(file, "  class %x:%x: %.3g %% of what is sent, less %" PRIu64 " bytes\n", class->major, class->minor,
                (double)promise.part / 1e7, promise.slack);
        return;
    }
    fprintf(file,
            "  class %x:%x: %.6g of %.6g Mbit/s, less %" PRIu64 " bytes, if polls are at most %.3f ms late; the latest was %.3f ms: %s\n",
            class->major, class->minor, (double)promise.rate / 1e6, (double)promise.link / 1e6, promise.slack, ms(late),
            ms(way->lateness.greatest), way->lateness.greatest <= late ? "it holds" : "it did not hold then");
}

static void promise_wait(struct direction *way, const qtree_node_view *node, FILE *file) {
    qtree_delay delay;
    if (qtree_worst(&way->device, node->place, node->parent_major, node->parent_minor, &delay) != QTREE_DONE) {
        fprintf(file, "  %s %x: no longest wait is promised\n", qtree_kind_name(node->kind), node->handle);
    } else if (delay.ns == UINT64_MAX) {
        fprintf(file, "  %s %x: a packet has left before %" PRIu64 " bytes are sent\n", qtree_kind_name(node->kind), node->handle,
                delay.bytes);
    } else {
        fprintf(file, "  %s %x: a packet waits %.3f ms at most, if polls are at most %.3f ms late; the latest was %.3f ms: %s\n",
                qtree_kind_name(node->kind), node->handle, ms(delay.ns), ms(delay.late), ms(way->lateness.greatest),
                way->lateness.greatest <= delay.late ? "it holds" : "it did not hold then");
    }
}

static void promise(struct direction *way, void *with) {
    qtree_node_view node;
    qtree_class_view class;
    for (size_t index = 0; qtree_node(&way->device, index, &node) == QTREE_DONE; index++) {
        if (node.kind == QTREE_PFIFO || node.kind == QTREE_BFIFO) {
            promise_wait(way, &node, with);
        }
        for (size_t which = 0; node.kind == QTREE_DRR && qtree_class(&way->device, index, which, &class) == QTREE_DONE; which++) {
            promise_class(way, &class, with);
        }
    }
}

void answer_promise(struct wire *wire, FILE *file) { say_of_both(wire, file, promise); }

uint64_t late_mostly(const struct lateness *lateness) {
    uint64_t all = 0, within = 0;
    for (size_t i = 0; i <= LATENESS_BOUNDS; i++) {
        all += lateness->by_bound[i];
    }
    for (size_t i = 0; i < LATENESS_BOUNDS; i++) {
        within += lateness->by_bound[i];
        if (within >= all - all / 1000) {
            return all == 0 ? 0 : lateness_bounds[i];
        }
    }
    return UINT64_MAX;
}

static void write_counts(struct direction *way, const struct reading *reading, FILE *file) {
    struct counts *counts = &way->counts;
    const qtree_row *row = &reading->tree.device;
    uint64_t socket = way->io->dropped(way);
    fprintf(file, "%s to %s: read %" PRIu64 " written %" PRIu64 " not_ip %" PRIu64 " turns %" PRIu64 " sleeps %" PRIu64 "\n", way->from,
            way->to, count_of(&counts->read), count_of(&counts->written), count_of(&counts->not_ip), count_of(&counts->turns),
            count_of(&counts->sleeps));
    fprintf(file,
            "  tree: arrived %" PRIu64 " sent %" PRIu64 " refused %" PRIu64 " dropped %" PRIu64 " queued %" PRIu64 " marked %" PRIu64
            "\n  lost in it:",
            row->arrived.packets, row->sent.packets, row->refused.packets, row->dropped.packets, row->queued.packets, row->marked.packets);
    for (qtree_code cause = QTREE_LOST_TOO_LONG; cause <= QTREE_LOST_PURGED; cause++) {
        fprintf(file, " %s %" PRIu64, qtree_code_name(cause), reading->losses.by_cause[cause].packets);
    }
    fprintf(file, "\n  lost beside it:");
    for (int cause = 0; cause < LOST_WAYS; cause++) {
        fprintf(file, " %s %" PRIu64, lost_names[cause], cause == LOST_SOCKET ? socket : count_of(&counts->lost[cause]));
    }
    fprintf(file, "\n  polls late by at most: %.3f ms\n", ms(reading->lateness.greatest));
}

void answer_counts(struct wire *wire, FILE *file) {
    for (int i = 0; i < 2; i++) {
        struct reading reading = { 0 };
        direction_ask(&wire->both[i], read_all, &reading);
        write_counts(&wire->both[i], &reading, file);
        tree_free(&reading.tree);
    }
}

void answer_last_counts(struct wire *wire, FILE *file) {
    for (int i = 0; i < 2; i++) {
        struct reading reading = { 0 };
        read_all(&wire->both[i], &reading);
        write_counts(&wire->both[i], &reading, file);
        tree_free(&reading.tree);
    }
}

/* One family of the program's own counts, with a row for each card that frames leave by. */
static void write_family(struct wire *wire, FILE *file, const char *name, const char *help, size_t at) {
    fprintf(file, "# HELP %s %s\n# TYPE %s counter\n", name, help, name);
    for (int i = 0; i < 2; i++) {
        const _Atomic uint64_t *count = (const _Atomic uint64_t *)(const void *)((const char *)&wire->both[i].counts + at);
        fprintf(file, "%s{device=\"%s\"} %" PRIu64 "\n", name, wire->both[i].to, count_of(count));
    }
}

static void write_lost(struct wire *wire, FILE *file) {
    const char *name = "qtree_wire_lost_frames_total";
    fprintf(file, "# HELP %s Frames lost beside the losses of the tree, by cause\n# TYPE %s counter\n", name, name);
    for (int i = 0; i < 2; i++) {
        struct direction *way = &wire->both[i];
        for (int cause = 0; cause < LOST_WAYS; cause++) {
            uint64_t lost = cause == LOST_SOCKET ? way->io->dropped(way) : count_of(&way->counts.lost[cause]);
            fprintf(file, "%s{device=\"%s\",cause=\"%s\"} %" PRIu64 "\n", name, way->to, lost_names[cause], lost);
        }
    }
}

void answer_metrics(struct wire *wire, FILE *file) {
    struct reading readings[2] = { 0 };
    struct source sources[2];
    for (int i = 0; i < 2; i++) {
        direction_ask(&wire->both[i], read_all, &readings[i]);
        sources[i] = (struct source){ wire->both[i].to, &readings[i].tree, &readings[i].losses, &readings[i].lateness };
    }
    if (readings[0].is_read && readings[1].is_read) {
        metrics_write(file, sources, 2);
    }
    write_family(wire, file, "qtree_wire_read_frames_total", "Frames read from the other card", offsetof(struct counts, read));
    write_family(wire, file, "qtree_wire_read_bytes_total", "Bytes of frames read from the other card",
                 offsetof(struct counts, read_bytes));
    write_family(wire, file, "qtree_wire_written_frames_total", "Frames given to the card", offsetof(struct counts, written));
    write_family(wire, file, "qtree_wire_written_bytes_total", "Bytes of frames given to the card", offsetof(struct counts, written_bytes));
    write_family(wire, file, "qtree_wire_not_ip_frames_total", "Frames in which no IP header was found", offsetof(struct counts, not_ip));
    write_family(wire, file, "qtree_wire_turns_total", "Turns of the thread", offsetof(struct counts, turns));
    write_lost(wire, file);
    tree_free(&readings[0].tree);
    tree_free(&readings[1].tree);
}
