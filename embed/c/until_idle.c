/* Plays the lines of a script that has no polls, and polls whenever a packet may go, as a link does that transmits as soon as it can.
 *
 *     until_idle [--rate BITS] [--mtu N] [--txqueuelen N] [--seed N] SCRIPT REPORT < LINES
 *
 * BITS a second is the rate of the link: while a packet is on the link, no other is sent. Without --rate a packet takes no time on it.
 * SCRIPT gets the lines with polls and reaps between them, and REPORT what `qtree play` writes for that script. If an arrival and a poll
 * come at the same time, the poll is first. After the last line it goes on until no more packets go. */
#include "session.h"

#include <inttypes.h>
#include <stdlib.h>
#include <string.h>

struct link {
    struct session session;
    struct text script;
    struct text report;
    uint64_t number;  /* of the last line of the script */
    uint64_t rate;    /* in bits a second, or 0 */
    uint64_t free_at; /* the time from which the link can take a packet */
};

static void play(struct link *link, const char *line, size_t len) {
    text_bytes(&link->script, line, len);
    text_bytes(&link->script, "\n", 1);
    link->number++;
    session_line(&link->session, link->number, (const uint8_t *)line, len, &link->report);
}

static void play_at(struct link *link, uint64_t now) {
    char line[32];
    if (now != link->session.now) {
        play(link, line, (size_t)snprintf(line, sizeof line, "at %" PRIu64, now));
    }
}

/* Plays a reap, if there are losses. */
static void reap(struct link *link) {
    size_t script = link->script.len, report = link->report.len;
    play(link, "reap", 4);
    if (link->report.len == report) {
        link->script.len = script;
        link->number--;
    }
}

/* If the report's last line says that a packet was sent, the link is busy for as long as that packet takes. */
static void take_link(struct link *link, size_t before) {
    char line[64] = "";
    unsigned long long number, len;
    size_t size = link->report.len - before < sizeof line ? link->report.len - before : sizeof line - 1;
    memcpy(line, link->report.bytes + before, size);
    if (link->rate > 0 && sscanf(line, "sent %llu %llu", &number, &len) == 2) {
        link->free_at = link->session.now + (len * 8 * 1000000000 + link->rate - 1) / link->rate;
    }
}

/* Polls at each time at which a packet may go, up to an end. */
static void poll_until(struct link *link, uint64_t end) {
    uint64_t ready;
    while (!link->report.is_short && qtree_ready_at(&link->session.device, &ready) == QTREE_DONE) {
        uint64_t due = ready > link->free_at ? ready : link->free_at;
        due = due > link->session.now ? due : link->session.now;
        if (due > end) {
            return;
        }
        play_at(link, due);
        size_t before = link->report.len;
        play(link, "poll", 4);
        take_link(link, before);
        reap(link);
    }
}

/* Plays lines, each of which has its end. */
static void play_lines(struct link *link, const char *line, size_t left) {
    for (const char *end; left > 0 && (end = memchr(line, '\n', left)) != NULL; line = end + 1) {
        size_t len = (size_t)(end - line);
        left -= len + 1;
        if (strncmp(line, "at ", 3) == 0) {
            uint64_t now = strtoull(line + 3, NULL, 10);
            poll_until(link, now);
            play_at(link, now);
        } else {
            play(link, line, len);
            reap(link);
        }
    }
    poll_until(link, QTREE_MOMENT_MAX);
}

static bool write_text(const struct text *text, const char *path) {
    FILE *file = fopen(path, "wb");
    bool is_written = file != NULL && fwrite(text->bytes, 1, text->len, file) == text->len;
    return file != NULL && fclose(file) == 0 && is_written && !text->is_short;
}

int main(int argc, char **argv) {
    struct play_options options = PLAY_DEFAULTS;
    struct link link = { .script = NO_TEXT, .report = NO_TEXT };
    int at = 1;
    for (; at + 1 < argc && strncmp(argv[at], "--", 2) == 0; at += 2) {
        if (strcmp(argv[at], "--rate") == 0) {
            link.rate = strtoull(argv[at + 1], NULL, 10);
        } else if (!take_option(&options, argv[at], argv[at + 1])) {
            fprintf(stderr, "until_idle: no option %s with a number\n", argv[at]);
            return 2;
        }
    }
    if (at + 2 != argc || !session_open(&link.session, &options)) {
        fprintf(stderr, "usage: until_idle [--rate BITS] [--mtu N] [--txqueuelen N] [--seed N] SCRIPT REPORT < LINES\n");
        return 2;
    }
    struct text lines = NO_TEXT;
    bool is_read = text_read(&lines, stdin);
    play_lines(&link, (const char *)lines.bytes, lines.len);
    bool is_written = is_read && write_text(&link.script, argv[at]) && write_text(&link.report, argv[at + 1]);
    int status = !is_written ? 2 : link.session.is_refused ? 1 : 0;
    session_close(&link.session);
    text_free(&lines);
    text_free(&link.script);
    text_free(&link.report);
    return status;
}
