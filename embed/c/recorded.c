/* Records sessions of a program, and writes each as a script, with the results that the program got: `qtree play` has to write the same.
 *
 *     recorded FOLDER    writes FOLDER/recorded-N.qtree and FOLDER/recorded-N.out, and plays each script over this library */
#include "check.h"
#include "session.h"

#include <string.h>

enum { SESSIONS = 20, STEPS = 400 };

static uint32_t state;

/* A random number below this one. */
static uint32_t below(uint32_t most) {
    state = state * 1664525u + 1013904223u;
    return (uint32_t)(((uint64_t)state * most) >> 32);
}

static void tc_line(struct text *line) {
    static const char *const forms[] = {
        "tc qdisc add dev wan root handle 1: prio bands 3",
        "tc qdisc add dev wan root handle 1: drr",
        "tc qdisc add dev wan root handle 1: tbf rate %u0kbit burst 3000 latency 12.345ms",
        "tc qdisc add dev wan parent 1:%u handle 2: fq_codel limit 20 flows 4 target 1.5ms interval 10ms noecn",
        "tc qdisc add dev wan parent 1:%u handle 3: pfifo limit 4",
        "tc qdisc add dev wan parent 1:%u handle 4: bfifo limit 4000",
        "tc qdisc change dev wan handle 2: fq_codel limit %u ecn drop_batch 2",
        "tc qdisc change dev wan handle 1: tbf rate 1mbit burst %u000 limit 9000",
        "tc qdisc change dev wan root prio bands 2 priomap 0 1 1 0 0 0 0 0 0 0 0 0 0 0 0 1",
        "tc class add dev wan parent 1: classid 1:%u drr quantum 1500",
        "tc class change dev wan classid 1:%u drr",
        "tc class del dev wan classid 1:%u",
        "tc filter add dev wan parent 1: prio %u protocol ip flower ip_proto udp src_ip 10.0.0.0/8 dst_port 53 classid 1:1",
        "tc filter add dev wan parent 1: prio %u flower dst_ip 2001:db8::/32 src_port 7 classid 1:2",
        "tc filter del dev wan parent 1: prio %u",
        "tc qdisc del dev wan parent 1:%u",
        "tc qdisc del dev wan root",
    };
    uint32_t form = below(sizeof forms / sizeof forms[0]);
    text_format(line, forms[form], 1 + below(4));
}

/* Each draw has a statement of its own: compilers evaluate arguments in different orders, and a seed is to give one session everywhere. */
static void pkt_line(struct text *line) {
    uint32_t len = 1 + below(1600), hash = below(UINT32_MAX), prio = below(16), ecn = below(4);
    text_format(line, "pkt %u hash %u prio %u ecn %u", len, hash, prio, ecn);
    uint32_t form = below(3), first = below(256);
    if (form == 0) {
        uint32_t last = below(256);
        text_format(line, " ip_proto udp src_ip 10.%u.0.1 dst_ip 192.0.2.%u src_port 7 dst_port 53", first, last);
    } else if (form == 1) {
        uint32_t last = below(65536);
        text_format(line, " ip_proto %x src_ip 2001:db8::%x dst_ip 2001:db8::1", first, last);
    }
}

/* A line of a program's session. Of a command only what it does is of interest, since a refused one is not recorded. */
static void step(struct session *session, struct text *report) {
    struct text line = NO_TEXT, unheard = NO_TEXT;
    uint32_t kind = below(16);
    if (kind == 0) {
        tc_line(&line);
    } else if (kind < 3) {
        text_format(&line, "at %llu", (unsigned long long)session->now + below(4000000));
    } else if (kind < 9) {
        pkt_line(&line);
    } else {
        text_format(&line, "poll %u", 1 + below(3));
    }
    session_line(session, 1, line.bytes, line.len, kind == 0 ? &unheard : report);
    text_free(&line);
    text_free(&unheard);
}

/* What a program sees at its end. */
static const char tail[] = "reap\ntotals\ntc -s qdisc show\ntc class show\ntc filter show\n";

static void end(struct session *session, struct text *report) {
    for (const char *line = tail; *line != '\0';) {
        size_t len = strcspn(line, "\n");
        session_line(session, 1, (const uint8_t *)line, len, report);
        line += len + 1;
    }
}

/* The script of all that a device recorded, and that of its events one by one, which is the same but for the lines that set the time. */
static void script_of(qtree_device *device, struct text *script) {
    size_t needed = 0, again = 0, recorded = 0;
    uint64_t events = 0;
    CHECK(qtree_events(device, &events, &recorded) == QTREE_DONE && events == recorded);
    CHECK(qtree_recorded_script(device, NULL, 0, &needed) == (events == 0 ? QTREE_DONE : QTREE_ROOM));
    uint8_t *at = text_room(script, needed);
    CHECK(at != NULL && qtree_recorded_script(device, at, needed, &again) == QTREE_DONE && again == needed);
    script->len += needed;
    uint64_t now = 0;
    for (size_t i = 0, place = 0; i < recorded; i++) {
        uint8_t line[1024];
        qtree_event event;
        CHECK(qtree_recorded(device, i, &event) == QTREE_DONE && qtree_recorded_line(device, i, line, sizeof line, &again) == QTREE_DONE);
        if (event.moment != now) {
            place += (size_t)snprintf(NULL, 0, "at %llu\n", (unsigned long long)event.moment);
            now = event.moment;
        }
        CHECK(place + again < needed && memcmp(at + place, line, again) == 0 && at[place + again] == '\n');
        place += again + 1;
        CHECK(i + 1 < recorded || place == needed);
    }
}

static void write_file(const char *folder, int number, const char *kind, const struct text *text) {
    char path[512];
    snprintf(path, sizeof path, "%s/recorded-%d.%s", folder, number, kind);
    FILE *file = fopen(path, "wb");
    CHECK(file != NULL && fwrite(text->bytes, 1, text->len, file) == text->len && fclose(file) == 0);
}

int main(int count, char **words) {
    CHECK(count == 2);
    for (int number = 0; number < SESSIONS; number++) {
        struct play_options options = PLAY_DEFAULTS;
        struct session session;
        struct text report = NO_TEXT, script = NO_TEXT, replayed = NO_TEXT;
        state = 7u + (uint32_t)number;
        CHECK(session_open(&session, &options));
        for (int i = 0; i < STEPS; i++) {
            step(&session, &report);
        }
        end(&session, &report);
        script_of(&session.device, &script);
        text_bytes(&script, tail, sizeof tail - 1);
        CHECK(!report.is_short && !script.is_short);
        CHECK(play_script(&options, script.bytes, script.len, &replayed) == 0);
        CHECK(replayed.len == report.len && memcmp(replayed.bytes, report.bytes, report.len) == 0);
        write_file(words[1], number, "qtree", &script);
        write_file(words[1], number, "out", &report);
        session_close(&session);
        text_free(&report);
        text_free(&script);
        text_free(&replayed);
    }
    printf("recorded: %d sessions of %d lines are played again to the same report\n", SESSIONS, STEPS);
    return 0;
}
