/* Records a session of 300,000 packets, whose script is longer than what `qtree play` reads, with the results that the program got.
 *
 *     long_session PREFIX    writes PREFIX.qtree and PREFIX.out; qtree-play has to write the same report */
#include "check.h"
#include "session.h"

enum { PACKETS = 300000, READ_BY_PLAY = 16777216 };

static void line_of(struct session *session, struct text *line, struct text *report) {
    session_line(session, 1, line->bytes, line->len, report);
    line->len = 0;
}

static void write_file(const char *prefix, const char *kind, const struct text *text) {
    char path[512];
    snprintf(path, sizeof path, "%s.%s", prefix, kind);
    FILE *file = fopen(path, "wb");
    CHECK(file != NULL && fwrite(text->bytes, 1, text->len, file) == text->len && fclose(file) == 0);
}

int main(int count, char **words) {
    CHECK(count == 2);
    struct play_options options = PLAY_DEFAULTS;
    struct session session;
    struct text line = NO_TEXT, report = NO_TEXT, script = NO_TEXT;
    options.settings.recorder = 1000000;
    CHECK(session_open(&session, &options));
    text_format(&line, "tc qdisc add dev wan root handle 1: fq_codel limit 500 flows 64");
    line_of(&session, &line, &report);
    for (unsigned i = 0; i < PACKETS; i++) {
        text_format(&line, "at %u", i * 700);
        line_of(&session, &line, &report);
        text_format(&line, "pkt %u ip_proto udp src_ip 10.0.%u.1 dst_ip 192.0.2.%u src_port %u dst_port 53", 60 + i % 1400, i % 200,
                    i % 7, 1024 + i % 5000);
        line_of(&session, &line, &report);
        if (i % 10 != 0) {
            text_format(&line, "poll");
            line_of(&session, &line, &report);
        }
    }
    size_t needed = 0;
    CHECK(qtree_recorded_script(&session.device, NULL, 0, &needed) == QTREE_ROOM);
    uint8_t *at = text_room(&script, needed);
    CHECK(at != NULL && qtree_recorded_script(&session.device, at, needed, &needed) == QTREE_DONE);
    script.len += needed;
    CHECK(!report.is_short && script.len > READ_BY_PLAY);
    write_file(words[1], "qtree", &script);
    write_file(words[1], "out", &report);
    printf("long_session: %d packets, a script of %zu bytes\n", PACKETS, script.len);
    session_close(&session);
    text_free(&line);
    text_free(&report);
    text_free(&script);
    return 0;
}
