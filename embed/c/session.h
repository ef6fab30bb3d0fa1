/* Plays a script over a device and writes its report, as `qtree play` does (docs/LANGUAGE.md). */
#ifndef SESSION_H
#define SESSION_H

#include "qtree.h"
#include "text.h"

struct session {
    qtree_device device;
    uint64_t now; /* the time of the lines that follow */
    uint64_t packets;
    uint32_t seed;
    bool is_refused; /* a line was faulty or refused */
};

struct play_options {
    qtree_settings settings;
    uint32_t seed;
};
#define PLAY_DEFAULTS { { 1000, 4096, 1514 }, 0 }

/* Takes an option of the command line, as "--mtu" and "100"; false where there is none such. */
bool take_option(struct play_options *options, const char *name, const char *value);
/* Opens the device of a session; false if an allocation fails. */
bool session_open(struct session *session, const struct play_options *options);
/* Plays a line without its newline; lines are numbered from 1. Appends what the line writes to the report. */
void session_line(struct session *session, uint64_t number, const uint8_t *line, size_t len, struct text *report);
void session_close(struct session *session);
/* The report of a script, and the status of the program: 0, 1 where a line was faulty or refused, 2 where nothing was played. */
int play_script(const struct play_options *options, const uint8_t *script, size_t len, struct text *report);

#endif
