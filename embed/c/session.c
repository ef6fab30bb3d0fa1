#include "session.h"

#include "packet_line.h"

#include <inttypes.h>
#include <stdlib.h>
#include <string.h>

static void tell_fault(struct session *session, uint64_t number, qtree_fault fault, struct text *report) {
    session->is_refused = true;
    text_format(report, "line %" PRIu64 ": fault %" PRIu32 " %s word %zu\n", number, fault.number, qtree_fault_name(fault.number),
                fault.word);
}

static void tell_refusal(struct session *session, uint64_t number, qtree_code code, struct text *report) {
    session->is_refused = true;
    text_format(report, "line %" PRIu64 ": refused %" PRIu32 " %s\n", number, code, qtree_code_name(code));
}

static void arrive(struct session *session, uint64_t number, qtree_packet *packet, struct text *report) {
    session->packets++;
    packet->number = session->packets;
    packet->buf = (uint32_t)session->packets;
    qtree_code code = qtree_arrive(&session->device, packet, session->now);
    if (code != QTREE_DONE && !qtree_is_loss(code)) {
        tell_refusal(session, number, code, report);
    }
}

static void poll_once(struct session *session, struct text *report) {
    qtree_packet packet;
    switch (qtree_poll(&session->device, session->now, &packet)) {
    case QTREE_DONE:
        text_format(report, "sent %" PRIu64 " %u%s\n", packet.number, packet.len, packet.ecn == 3 ? " ce" : "");
        break;
    case QTREE_IDLE:
        text_format(report, "idle\n");
        break;
    default:
        text_format(report, "later\n");
    }
}

static void reap(struct session *session, struct text *report) {
    qtree_loss losses[32];
    size_t count;
    do {
        qtree_reap_many(&session->device, losses, sizeof losses / sizeof losses[0], &count);
        for (size_t i = 0; i < count; i++) {
            text_format(report, "lost %" PRIu64 " %u %s\n", losses[i].packet.number, losses[i].packet.len, qtree_code_name(losses[i].cause));
        }
    } while (count > 0);
}

static void totals(struct session *session, struct text *report) {
    qtree_row row;
    qtree_totals(&session->device, &row);
    const qtree_count counts[] = { row.arrived, row.sent, row.refused, row.dropped, row.queued };
    const char *const names[] = { "arrived", "sent", "refused", "dropped", "queued" };
    text_format(report, "device");
    for (size_t i = 0; i < sizeof counts / sizeof counts[0]; i++) {
        text_format(report, " %s %" PRIu64 "p %" PRIu64 "b", names[i], counts[i].packets, counts[i].bytes);
    }
    text_format(report, "\n");
}

/* What `tc [-s] qdisc|class|filter show` prints, of a line that is known to be one. */
static void show(struct session *session, const uint8_t *line, size_t len, struct text *report) {
    struct reader reader = reader_of(line, len);
    struct word word;
    needed_word(&reader, &word);
    needed_word(&reader, &word);
    bool counters = word_is(word, "-s");
    if (counters) {
        needed_word(&reader, &word);
    }
    uint32_t what = word_is(word, "class")    ? QTREE_SHOW_CLASSES
                    : word_is(word, "filter") ? QTREE_SHOW_FILTERS
                    : counters                ? QTREE_SHOW_COUNTERS
                                              : QTREE_SHOW_QDISCS;
    size_t needed;
    qtree_show(&session->device, what, NULL, 0, &needed);
    uint8_t *end = needed == 0 ? NULL : text_room(report, needed);
    if (end != NULL && qtree_show(&session->device, what, end, needed, &needed) == QTREE_DONE) {
        report->len += needed;
    }
}

static void tc_line(struct session *session, uint64_t number, const uint8_t *line, size_t len, struct text *report) {
    qtree_fault fault;
    qtree_code code = qtree_command(&session->device, line, len, session->now, &fault);
    if (code == QTREE_FAULTY) {
        tell_fault(session, number, fault, report);
    } else if (code == QTREE_NO_COMMAND) {
        show(session, line, len, report);
    } else if (code != QTREE_DONE) {
        tell_refusal(session, number, code, report);
    }
}

static bool read_polls(struct reader *reader, uint64_t *polls) {
    struct word word;
    *polls = 1;
    return next_word(reader, &word) && (word.len == 0 || (read_number(reader, word, 1, 100000, polls) && line_ends(reader)));
}

static bool read_time(struct reader *reader, uint64_t *time) {
    struct word word;
    uint64_t found;
    if (!needed_word(reader, &word) || !read_number(reader, word, 0, QTREE_MOMENT_MAX, &found) || !line_ends(reader)) {
        return false;
    }
    *time = found;
    return true;
}

/* A line with words, the first of which was read; false where it is faulty. */
static bool play_words(struct session *session, uint64_t number, struct reader *reader, struct word first, struct text *report) {
    qtree_packet packet;
    uint64_t polls;
    if (word_is(first, "pkt") || word_is(first, "frame")) {
        bool is_frame = word_is(first, "frame");
        if (!(is_frame ? read_frame(reader, session->seed, &packet) : read_packet(reader, session->seed, &packet))) {
            return false;
        }
        arrive(session, number, &packet, report);
    } else if (word_is(first, "poll")) {
        if (!read_polls(reader, &polls)) {
            return false;
        }
        for (; polls > 0; polls--) {
            poll_once(session, report);
        }
    } else if (word_is(first, "at")) {
        return read_time(reader, &session->now);
    } else if (word_is(first, "reap") || word_is(first, "totals")) {
        if (!line_ends(reader)) {
            return false;
        }
        if (word_is(first, "reap")) {
            reap(session, report);
        } else {
            totals(session, report);
        }
    } else {
        return fault_here(reader, QTREE_FAULT_UNKNOWN_WORD);
    }
    return true;
}

bool session_open(struct session *session, const struct play_options *options) {
    *session = (struct session){ .device = QTREE_CLOSED, .seed = options->seed };
    return qtree_open(&session->device, &options->settings) == QTREE_DONE;
}

void session_close(struct session *session) { qtree_close(&session->device); }

void session_line(struct session *session, uint64_t number, const uint8_t *line, size_t len, struct text *report) {
    struct reader reader = reader_of(line, len);
    struct word first;
    bool is_read = next_word(&reader, &first);
    if (first.len == 0 || first.at[0] == '#') {
        return;
    }
    if (is_read && word_is(first, "tc")) {
        tc_line(session, number, line, len, report);
    } else if (!is_read || !play_words(session, number, &reader, first, report)) {
        tell_fault(session, number, reader.fault, report);
    }
}

bool take_option(struct play_options *options, const char *name, const char *value) {
    char *end;
    unsigned long number = strtoul(value, &end, 10);
    if (*value < '0' || *value > '9' || *end != '\0' || number > UINT32_MAX) {
        return false;
    }
    if (strcmp(name, "--mtu") == 0 && number <= UINT16_MAX) {
        options->settings.mtu = (uint16_t)number;
    } else if (strcmp(name, "--txqueuelen") == 0) {
        options->settings.txqueuelen = (uint32_t)number;
    } else if (strcmp(name, "--record") == 0) {
        options->settings.recorder = (uint32_t)number;
    } else if (strcmp(name, "--seed") == 0) {
        options->seed = (uint32_t)number;
    } else {
        return false;
    }
    return true;
}

int play_script(const struct play_options *options, const uint8_t *script, size_t len, struct text *report) {
    struct session session;
    if (!session_open(&session, options)) {
        return 2;
    }
    for (uint64_t number = 1; len > 0; number++) {
        const uint8_t *end = memchr(script, '\n', len);
        size_t line = end == NULL ? len : (size_t)(end - script);
        session_line(&session, number, script, line, report);
        size_t gone = end == NULL ? len : line + 1;
        script += gone;
        len -= gone;
    }
    session_close(&session);
    return report->is_short ? 2 : session.is_refused ? 1 : 0;
}
