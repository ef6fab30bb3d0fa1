/* qtree-play: plays a script of any length over the header for C, and writes its report, as `qtree play` does. It reads the script as a
 * stream and runs each line as it comes, so that only the recorder and the packets that wait take memory. */
#include "session.h"

#include <errno.h>
#include <stdlib.h>
#include <string.h>

static const char usage[] = "usage: qtree-play [play] [--mtu N] [--txqueuelen N] [--seed N] [--record N] [FILE]\n"
                            "       qtree-play --version\n";
static const char help[] =
    "\n"
    "Plays a script of qtree's language, of FILE or of standard input, over the library for C, and writes its report on standard\n"
    "output, as qtree play does. A script may have any length, where qtree play reads 16,777,216 bytes at most.\n"
    "\n"
    "--mtu N           the longest packet in bytes, 1 to 65535, by default 1514\n"
    "--txqueuelen N    the packets of an implicit pfifo, 0 to 4294967295, by default 1000\n"
    "--seed N          the seed of the hash, 0 to 4294967295, by default 0\n"
    "--record N        the events that the device records, 0 to 1000000, by default 4096\n"
    "\n"
    "The status is 0, or 1 where a line was faulty or refused, or 2 where the script could not be read or the report not be\n"
    "written; then a line on standard error says why, and the report ends early.\n";

enum { CHUNK = 65536 };

#if defined(__x86_64__)
#define PROCESSOR "x86_64"
#elif defined(__aarch64__)
#define PROCESSOR "aarch64"
#else
#define PROCESSOR "this processor"
#endif

/* The libraries that are not, or not all, what the kit proved have one of these. */
extern const char qtree_not_proved[] __attribute__((weak));
extern const char qtree_rewritten[] __attribute__((weak));

static int tell_version(void) {
    const char *built = "libqtree as the kit built it for " PROCESSOR;
    const char *said = qtree_not_proved != NULL ? qtree_not_proved : qtree_rewritten != NULL ? qtree_rewritten : built;
    printf("qtree-play over libqtree %u.%u: %s\n", qtree_version() >> 16, qtree_version() & 0xffff, said);
    if (qtree_not_proved != NULL && qtree_rewritten != NULL) {
        printf("%s\n", qtree_rewritten);
    }
    return fflush(stdout) != 0 ? 2 : 0;
}

struct player {
    struct session session;
    struct text rest;   /* what was read and not yet played: a line without its end */
    struct text report; /* what was not yet written */
    uint64_t number;    /* of the line that was played last */
};

static int failed(const char *what, const char *why) {
    fprintf(stderr, "qtree-play: %s: %s\n", what, why);
    return 2;
}

static bool write_report(struct player *player) {
    bool is_written = fwrite(player->report.bytes, 1, player->report.len, stdout) == player->report.len;
    player->report.len = 0;
    return is_written && !player->report.is_short;
}

static void play_line(struct player *player, const uint8_t *line, size_t len) {
    player->number++;
    session_line(&player->session, player->number, line, len, &player->report);
}

/* Plays the whole lines among the bytes that are there, the first of which no line end was looked for in, and keeps the rest. */
static bool play_lines(struct player *player, size_t looked) {
    uint8_t *line = player->rest.bytes, *end;
    size_t left = player->rest.len;
    bool is_written = true;
    while (is_written && left > looked && (end = memchr(line + looked, '\n', left - looked)) != NULL) {
        size_t len = (size_t)(end - line);
        play_line(player, line, len);
        line += len + 1;
        left -= len + 1;
        looked = 0;
        is_written = player->report.len < CHUNK || write_report(player);
    }
    memmove(player->rest.bytes, line, left);
    player->rest.len = left;
    return is_written;
}

static int play_stream(struct player *player, FILE *file, const char *name) {
    for (;;) {
        uint8_t *end = text_room(&player->rest, CHUNK);
        if (end == NULL) {
            return failed(name, "no memory for a line");
        }
        size_t looked = player->rest.len;
        size_t len = fread(end, 1, CHUNK, file);
        player->rest.len += len;
        if (len == 0 && ferror(file)) {
            return failed(name, strerror(errno));
        }
        if (len == 0) {
            break;
        }
        if (!play_lines(player, looked)) {
            return failed("the report", player->report.is_short ? "no memory" : strerror(errno));
        }
    }
    if (player->rest.len > 0) {
        play_line(player, player->rest.bytes, player->rest.len);
    }
    if (!write_report(player) || fflush(stdout) != 0) {
        return failed("the report", player->report.is_short ? "no memory" : strerror(errno));
    }
    return player->session.is_refused ? 1 : 0;
}

static int play_file(const struct play_options *options, FILE *file, const char *name) {
    struct player player = { .rest = NO_TEXT, .report = NO_TEXT };
    if (!session_open(&player.session, options)) {
        return failed("the device cannot be opened", "a setting is out of range, or there is no memory");
    }
    int status = play_stream(&player, file, name);
    session_close(&player.session);
    text_free(&player.rest);
    text_free(&player.report);
    return status;
}

int main(int argc, char **argv) {
    struct play_options options = PLAY_DEFAULTS;
    int at = argc > 1 && strcmp(argv[1], "play") == 0 ? 2 : 1;
    if (at < argc && strcmp(argv[at], "--version") == 0) {
        return tell_version();
    }
    for (; at < argc && strncmp(argv[at], "--", 2) == 0; at += 2) {
        if (strcmp(argv[at], "--help") == 0) {
            return printf("%s%s", usage, help) < 0 || fflush(stdout) != 0 ? 2 : 0;
        }
        if (at + 1 == argc || !take_option(&options, argv[at], argv[at + 1])) {
            fprintf(stderr, "qtree-play: no option %s with a number in its range\n%s", argv[at], usage);
            return 2;
        }
    }
    if (at + 1 < argc) {
        fputs(usage, stderr);
        return 2;
    }
    const char *name = at < argc ? argv[at] : "-";
    if (strcmp(name, "-") == 0) {
        return play_file(&options, stdin, "standard input");
    }
    FILE *file = fopen(name, "rb");
    if (file == NULL) {
        return failed(name, strerror(errno));
    }
    int status = play_file(&options, file, name);
    fclose(file);
    return status;
}
