#include "metrics.h"

#include <inttypes.h>
#include <string.h>

enum { SECOND = 1000000000 };

/* The counts of a row, by their position in it. */
static const struct {
    const char *name, *help;
    size_t at;
    bool is_gauge;
} counts[] = {
    { "arrived", "that arrived", offsetof(qtree_row, arrived), false },
    { "sent", "that were sent", offsetof(qtree_row, sent), false },
    { "refused", "that were lost as they arrived", offsetof(qtree_row, refused), false },
    { "dropped", "that were lost from a queue", offsetof(qtree_row, dropped), false },
    { "marked", "that were marked with Ce", offsetof(qtree_row, marked), false },
    { "queued", "that are queued", offsetof(qtree_row, queued), true },
};

/* A label's value: a backslash, a quote and a new line are written in two bytes. */
static void write_value(FILE *file, const char *value) {
    for (; *value != '\0'; value++) {
        if (*value == '\n') {
            fputs("\\n", file);
        } else {
            fprintf(file, "%s%c", *value == '\\' || *value == '"' ? "\\" : "", *value);
        }
    }
}

static void write_head(FILE *file, const char *name, const char *type, const char *help, const char *more) {
    fprintf(file, "# HELP %s %s%s\n# TYPE %s %s\n", name, help, more, name, type);
}

/* The name and the first label; the caller writes further labels, each with a comma before it, and closes the brace. */
static void write_begin(FILE *file, const char *name, const char *device) {
    fprintf(file, "%s{device=\"", name);
    write_value(file, device);
    fputs("\"", file);
}

static uint64_t count_of(const qtree_row *row, size_t at, bool in_bytes) {
    const qtree_count *count = (const qtree_count *)((const char *)row + at);
    return in_bytes ? count->bytes : count->packets;
}

static void write_qdisc(FILE *file, const qtree_node_view *qdisc) {
    fprintf(file, ",kind=\"%s\",handle=\"%" PRIx16 ":\",parent=\"", qtree_kind_name(qdisc->kind), qdisc->handle);
    if (qdisc->place == QTREE_ROOT) {
        fputs("root\"}", file);
    } else {
        fprintf(file, "%" PRIx16 ":%" PRIx16 "\"}", qdisc->parent_major, qdisc->parent_minor);
    }
}

/* One family: a count of each device itself and of each of its qdiscs, in packets or in bytes. */
static void write_counts(FILE *file, const struct source *sources, size_t source_count, size_t which, bool in_bytes) {
    char name[64];
    const char *unit = in_bytes ? "bytes" : "packets";
    snprintf(name, sizeof name, "qtree_%s_%s%s", counts[which].name, unit, counts[which].is_gauge ? "" : "_total");
    write_head(file, name, counts[which].is_gauge ? "gauge" : "counter", in_bytes ? "Bytes of packets " : "Packets ", counts[which].help);
    for (const struct source *source = sources; source < sources + source_count; source++) {
        const struct tree *tree = source->tree;
        write_begin(file, name, source->device);
        fprintf(file, ",kind=\"device\",handle=\"\",parent=\"\"} %" PRIu64 "\n", count_of(&tree->device, counts[which].at, in_bytes));
        for (size_t i = 0; i < tree->qdisc_count; i++) {
            write_begin(file, name, source->device);
            write_qdisc(file, &tree->qdiscs[i]);
            fprintf(file, " %" PRIu64 "\n", count_of(&tree->qdiscs[i].row, counts[which].at, in_bytes));
        }
    }
}

/* The losses of one device by cause. A cause that the header does not know yet is written once it occurs. */
static void write_causes(FILE *file, const char *name, const struct source *source, bool in_bytes) {
    for (qtree_code cause = QTREE_LOST_TOO_LONG; cause <= QTREE_LOST_MOST; cause++) {
        const qtree_count *lost = &source->losses->by_cause[cause];
        bool is_known = strcmp(qtree_code_name(cause), "Unknown") != 0;
        if (!is_known && lost->packets == 0) {
            continue;
        }
        write_begin(file, name, source->device);
        if (is_known) {
            fprintf(file, ",cause=\"%s\"} ", qtree_code_name(cause));
        } else {
            fprintf(file, ",cause=\"%" PRIu32 "\"} ", cause);
        }
        fprintf(file, "%" PRIu64 "\n", in_bytes ? lost->bytes : lost->packets);
    }
}

/* One family: the losses by cause, in packets or in bytes. */
static void write_losses(FILE *file, const struct source *sources, size_t source_count, bool in_bytes) {
    const char *name = in_bytes ? "qtree_lost_bytes_total" : "qtree_lost_packets_total";
    write_head(file, name, "counter", in_bytes ? "Bytes of packets " : "Packets ", "that were reaped, by cause");
    for (size_t i = 0; i < source_count; i++) {
        write_causes(file, name, &sources[i], in_bytes);
    }
}

/* One family of the classes of drrs: its first number is the quantum, then the deficit, then whether it is active. */
static void write_classes(FILE *file, const struct source *sources, size_t source_count, int which) {
    static const char *const names[] = { "qtree_class_quantum_bytes", "qtree_class_deficit_bytes", "qtree_class_active" };
    static const char *const helps[] = { "Quantum of a class of a drr", "What an active class may send before the next quantum",
                                         "Whether a class of a drr has packets" };
    write_head(file, names[which], "gauge", helps[which], "");
    for (const struct source *source = sources; source < sources + source_count; source++) {
        for (size_t i = 0; i < source->tree->class_count; i++) {
            const qtree_class_view *class = &source->tree->classes[i];
            const uint64_t numbers[] = { class->quantum, class->deficit, class->active };
            write_begin(file, names[which], source->device);
            fprintf(file, ",class=\"%" PRIx16 ":%" PRIx16 "\"} %" PRIu64 "\n", class->major, class->minor, numbers[which]);
        }
    }
}

/* How many flows of each fq_codel are in its list of new flows; or of old ones. */
static void write_flows(FILE *file, const struct source *sources, size_t source_count, bool are_new) {
    const char *name = are_new ? "qtree_new_flows" : "qtree_old_flows";
    write_head(file, name, "gauge", "Flows in the list of ", are_new ? "new flows" : "old flows");
    for (const struct source *source = sources; source < sources + source_count; source++) {
        for (size_t i = 0; i < source->tree->qdisc_count; i++) {
            const qtree_node_view *qdisc = &source->tree->qdiscs[i];
            if (qdisc->kind == QTREE_FQ_CODEL) {
                write_begin(file, name, source->device);
                write_qdisc(file, qdisc);
                fprintf(file, " %" PRIu32 "\n", are_new ? qdisc->new_flows : qdisc->old_flows);
            }
        }
    }
}

/* How long the oldest packet has waited at each device and at each qdisc where one is queued. */
static void write_waits(FILE *file, const struct source *sources, size_t source_count) {
    const char *name = "qtree_oldest_packet_seconds";
    write_head(file, name, "gauge", "How long the oldest packet that is queued has waited", "");
    for (const struct source *source = sources; source < sources + source_count; source++) {
        const struct tree *tree = source->tree;
        if (tree->device_wait != NOBODY_WAITS) {
            write_begin(file, name, source->device);
            fprintf(file, ",kind=\"device\",handle=\"\",parent=\"\"} %.9f\n", (double)tree->device_wait / SECOND);
        }
        for (size_t i = 0; i < tree->qdisc_count; i++) {
            if (tree->waits[i] != NOBODY_WAITS) {
                write_begin(file, name, source->device);
                write_qdisc(file, &tree->qdiscs[i]);
                fprintf(file, " %.9f\n", (double)tree->waits[i] / SECOND);
            }
        }
    }
}

/* A number that has the device as its only label; a time is written in seconds. */
static void write_number(FILE *file, const char *device, const char *name, uint64_t number, bool is_time) {
    write_begin(file, name, device);
    if (is_time) {
        fprintf(file, "} %.9f\n", (double)number / SECOND);
    } else {
        fprintf(file, "} %" PRIu64 "\n", number);
    }
}

/* The histogram of how late the polls of one device were. */
static void write_bounds(FILE *file, const char *device, const struct lateness *lateness) {
    uint64_t polls = 0;
    for (size_t i = 0; i <= LATENESS_BOUNDS; i++) {
        polls += lateness->by_bound[i];
        write_begin(file, "qtree_poll_lateness_seconds_bucket", device);
        if (i < LATENESS_BOUNDS) {
            fprintf(file, ",le=\"%g\"} %" PRIu64 "\n", (double)lateness_bounds[i] / SECOND, polls);
        } else {
            fprintf(file, ",le=\"+Inf\"} %" PRIu64 "\n", polls);
        }
    }
    write_number(file, device, "qtree_poll_lateness_seconds_sum", lateness->sum, true);
    write_number(file, device, "qtree_poll_lateness_seconds_count", polls, false);
}

/* How late polls were, as a histogram, and beside it the greatest lateness, what the classes allow, and how many were later than that. */
static void write_lateness(FILE *file, const struct source *sources, size_t source_count) {
    static const char greatest[] = "qtree_poll_lateness_greatest_seconds", late[] = "qtree_polls_too_late_total";
    static const char allowed[] = "qtree_poll_lateness_allowed_seconds";
    const struct source *end = sources + source_count;
    bool is_any_allowed = false;
    write_head(file, "qtree_poll_lateness_seconds", "histogram", "How long after the time of qtree_ready_at a poll came", "");
    for (const struct source *source = sources; source < end; source++) {
        write_bounds(file, source->device, source->lateness);
        is_any_allowed = is_any_allowed || source->lateness->allowed < UINT64_MAX;
    }
    write_head(file, greatest, "gauge", "The greatest lateness of a poll", "");
    for (const struct source *source = sources; source < end; source++) {
        write_number(file, source->device, greatest, source->lateness->greatest, true);
    }
    write_head(file, late, "counter", "Polls that were later than the classes allow", "");
    for (const struct source *source = sources; source < end; source++) {
        write_number(file, source->device, late, source->lateness->above, false);
    }
    if (is_any_allowed) {
        write_head(file, allowed, "gauge", "How late a poll may be for the promise of each class to hold", "");
    }
    for (const struct source *source = sources; source < end; source++) {
        if (source->lateness->allowed < UINT64_MAX) {
            write_number(file, source->device, allowed, source->lateness->allowed, true);
        }
    }
}

void metrics_write(FILE *file, const struct source *sources, size_t source_count) {
    for (size_t which = 0; which < sizeof counts / sizeof counts[0]; which++) {
        write_counts(file, sources, source_count, which, false);
        write_counts(file, sources, source_count, which, true);
    }
    write_waits(file, sources, source_count);
    write_losses(file, sources, source_count, false);
    write_losses(file, sources, source_count, true);
    for (int which = 0; which < 3; which++) {
        write_classes(file, sources, source_count, which);
    }
    write_flows(file, sources, source_count, true);
    write_flows(file, sources, source_count, false);
    write_lateness(file, sources, source_count);
}
