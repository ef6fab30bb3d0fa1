#include "top.h"

#include "control.h"
#include "samples.h"
#include "wire.h"

#include <poll.h>
#include <stdio.h>
#include <stdlib.h>
#include <string.h>
#include <time.h>
#include <unistd.h>

enum { SECOND_MS = 1000, MOST_CAUSES = 32 };
static const char whole[] = "kind=\"device\",handle=\"\",parent=\"\"";

/* What was read last, and before that, and the seconds between them. */
struct view {
    struct samples now, before;
    double seconds;
    char devices[2][32];
};

static double value(const struct view *view, const char *name, int device, const char *labels) {
    return samples_value(&view->now, name, view->devices[device], labels, 0);
}

/* How much a counter grew in a second. */
static double rate(const struct view *view, const char *name, int device, const char *labels) {
    double before = samples_value(&view->before, name, view->devices[device], labels, -1);
    return before < 0 || view->seconds <= 0 ? 0 : (value(view, name, device, labels) - before) / view->seconds;
}

/* The cards, in the order in which they are written. */
static void find_devices(struct view *view) {
    int count = 0;
    for (size_t i = 0; i < view->now.count && count < 2; i++) {
        const char *device = view->now.all[i].device;
        if (count == 0 || strcmp(view->devices[0], device) != 0) {
            snprintf(view->devices[count++], sizeof view->devices[0], "%s", device);
        }
    }
}

static void draw_rates(const struct view *view) {
    printf("%-26s %16s %16s\n", "to", view->devices[0], view->devices[1]);
    printf("%-26s %16.2f %16.2f\n", "read, Mbit/s", rate(view, "qtree_wire_read_bytes_total", 0, "") * 8e-6,
           rate(view, "qtree_wire_read_bytes_total", 1, "") * 8e-6);
    printf("%-26s %16.2f %16.2f\n", "written, Mbit/s", rate(view, "qtree_wire_written_bytes_total", 0, "") * 8e-6,
           rate(view, "qtree_wire_written_bytes_total", 1, "") * 8e-6);
    printf("%-26s %16.0f %16.0f\n", "written, frames/s", rate(view, "qtree_wire_written_frames_total", 0, ""),
           rate(view, "qtree_wire_written_frames_total", 1, ""));
    printf("%-26s %16.0f %16.0f\n", "queued, frames", value(view, "qtree_queued_packets", 0, whole),
           value(view, "qtree_queued_packets", 1, whole));
    printf("%-26s %16.2f %16.2f\n", "the oldest waits, ms", value(view, "qtree_oldest_packet_seconds", 0, whole) * 1e3,
           value(view, "qtree_oldest_packet_seconds", 1, whole) * 1e3);
    printf("%-26s %16.1f %16.1f\n", "marked/s", rate(view, "qtree_marked_packets_total", 0, whole),
           rate(view, "qtree_marked_packets_total", 1, whole));
    printf("%-26s %16.3f %16.3f\n", "polls late at most, ms", value(view, "qtree_poll_lateness_greatest_seconds", 0, "") * 1e3,
           value(view, "qtree_poll_lateness_greatest_seconds", 1, "") * 1e3);
    printf("%-26s %16.1f %16.1f\n", "polls too late/s", rate(view, "qtree_polls_too_late_total", 0, ""),
           rate(view, "qtree_polls_too_late_total", 1, ""));
}

/* The losses by cause, of those that ever occurred: a second's, and all. */
static void draw_losses(const struct view *view, const char *name, const char *of) {
    for (size_t i = 0; i < view->now.count; i++) {
        const struct sample *it = &view->now.all[i];
        if (strcmp(it->name, name) != 0 || strcmp(it->device, view->devices[0]) != 0) {
            continue;
        }
        char cause[64] = "";
        sscanf(it->labels, "cause=\"%63[^\"]", cause);
        double all[2] = { it->value, value(view, name, 1, it->labels) };
        if (all[0] + all[1] > 0) {
            printf("lost %s: %-*s %7.0f/s %6.0f %7.0f/s %6.0f\n", of, (int)(19 - strlen(of)), cause, rate(view, name, 0, it->labels),
                   all[0], rate(view, name, 1, it->labels), all[1]);
        }
    }
}

static void draw_qdiscs(const struct view *view) {
    printf("\n%-8s %-9s %-6s %-9s %10s %8s %9s %8s\n", "card", "qdisc", "handle", "parent", "Mbit/s", "queued", "oldest ms", "lost/s");
    for (size_t i = 0; i < view->now.count; i++) {
        const struct sample *it = &view->now.all[i];
        char kind[16] = "", handle[16] = "", parent[16] = "";
        int device = strcmp(it->device, view->devices[0]) == 0 ? 0 : 1;
        bool is_row = strcmp(it->name, "qtree_queued_packets") == 0 && strcmp(it->labels, whole) != 0;
        if (!is_row || sscanf(it->labels, "kind=\"%15[^\"]\",handle=\"%15[^\"]\",parent=\"%15[^\"]\"", kind, handle, parent) != 3) {
            continue;
        }
        double lost =
            rate(view, "qtree_refused_packets_total", device, it->labels) + rate(view, "qtree_dropped_packets_total", device, it->labels);
        printf("%-8s %-9s %-6s %-9s %10.2f %8.0f %9.2f %8.1f\n", it->device, kind, handle, parent,
               rate(view, "qtree_sent_bytes_total", device, it->labels) * 8e-6, it->value,
               value(view, "qtree_oldest_packet_seconds", device, it->labels) * 1e3, lost);
    }
}

static void draw(const struct view *view, const char *name, bool is_terminal) {
    char at[32];
    time_t now = time(NULL);
    struct tm parts;
    strftime(at, sizeof at, "%H:%M:%S", localtime_r(&now, &parts));
    fputs(is_terminal ? "\033[H\033[J" : "", stdout);
    printf("qtree-wire %s  %s  %s\n\n", name, at, is_terminal ? "(Enter ends it)" : "");
    draw_rates(view);
    draw_losses(view, "qtree_lost_packets_total", "in the tree");
    draw_losses(view, "qtree_wire_lost_frames_total", "beside it");
    draw_qdiscs(view);
    fflush(stdout);
}

/* Whether the reader wants to leave; waits a second for that. */
static bool is_left(bool is_terminal) {
    struct pollfd keys = { STDIN_FILENO, POLLIN, 0 };
    return poll(&keys, is_terminal ? 1 : 0, SECOND_MS) > 0;
}

int top_run(const char *name, long times) {
    bool is_terminal = isatty(STDOUT_FILENO) && isatty(STDIN_FILENO);
    struct view view = { 0 };
    uint64_t before = 0;
    int status = 0;
    for (long turn = 0; times == 0 || turn < times; turn++) {
        char *text = control_read(name, "metrics");
        uint64_t now = clock_now();
        if (text == NULL || !samples_read(&view.now, text)) {
            free(text);
            status = 1;
            break;
        }
        free(text);
        view.seconds = before == 0 ? 0 : (double)(now - before) / 1e9;
        before = now;
        find_devices(&view);
        draw(&view, name, is_terminal);
        samples_free(&view.before);
        view.before = view.now;
        if ((times != 0 && turn + 1 == times) || is_left(is_terminal)) {
            break;
        }
    }
    samples_free(&view.before);
    return status;
}
