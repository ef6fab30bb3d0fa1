/* The calls of the page. Times are doubles, exact to 2^53 ns, and places and lengths have 32 bits, so that JavaScript needs no large
 * numbers. The page writes a text where text_in says, and reads the answer where answer_at says. */
#include "../../c/session.h"
#include "../drawing.h"
#include "../report.h"

#include <stdlib.h>

/* The linker exports these by name. */
#define API(name)

enum { SLICE = 512 };

extern const char qtree_not_proved[] __attribute__((weak));
static struct text given = NO_TEXT, answer = NO_TEXT;
static struct mix mix;
static struct simulation *sims[TREES];
static enum plant planted;

static uint32_t place_of(const void *at) { return (uint32_t)(uintptr_t)at; }

static void clear(void) {
    answer.len = 0;
    answer.is_short = false;
}

API(text_in) uint32_t text_in(uint32_t len) {
    given.len = 0;
    return text_room(&given, len + 1) != NULL ? place_of(given.bytes) : 0;
}
API(answer_at) uint32_t answer_at(void) { return place_of(answer.bytes); }
API(answer_len) uint32_t answer_len(void) { return (uint32_t)answer.len; }
API(version) uint32_t version(void) { return qtree_version(); }
API(is_proved) uint32_t is_proved(void) { return qtree_not_proved == NULL; }
API(style) void style(void) {
    clear();
    text_format(&answer, "%s", "");
    for (const char *at = drawing_style; *at != '\0'; at++) {
        text_bytes(&answer, at, 1);
    }
}

/* Plays a script as qtree-play does. */
API(play) uint32_t play(uint32_t len, uint32_t mtu, uint32_t txqueuelen, uint32_t seed, uint32_t record) {
    const struct play_options options = { { txqueuelen, record, (uint16_t)mtu }, seed };
    clear();
    return (uint32_t)play_script(&options, given.bytes, len, &answer);
}

/* The mistake that a test plants in the runs that follow. */
API(plant) void plant(uint32_t mistake) { planted = (enum plant)mistake; }

static void close_all(void) {
    for (size_t at = 0; at < TREES; at++) {
        if (sims[at] != NULL) {
            simulation_close(sims[at]);
        }
    }
    mix_free(&mix);
}

static bool open_again(size_t tree, uint32_t recorder) {
    if (sims[tree] == NULL) {
        sims[tree] = malloc(sizeof *sims[tree]);
    }
    return sims[tree] != NULL && simulation_open(sims[tree], &mix, tree, recorder, planted);
}

/* Reads a mix, and sets its trees up; the number of them, or 0, and then the answer says what is wrong. */
API(load) uint32_t load(uint32_t len) {
    clear();
    close_all();
    bool is_right = mix_read(&mix, given.bytes, len, &answer);
    for (size_t tree = 0; is_right && tree < mix.tree_count; tree++) {
        if (!open_again(tree, 0)) {
            text_format(&answer, "there is no memory for this\n");
            is_right = false;
        }
    }
    return is_right ? (uint32_t)mix.tree_count : 0;
}
API(now) double now(uint32_t tree) { return (double)sims[tree]->now; }
API(seconds) double seconds(void) { return (double)mix.last / 1e9; }

/* How many packets come and leave in all, at most. */
API(packets) double packets(void) {
    double sum = 0;
    for (size_t tree = 0; tree < mix.tree_count; tree++) {
        sum += (double)simulation_packets(sims[tree]);
    }
    return sum;
}

/* Goes on for some events, or until a time in ns; 0 if it is to be called again, 1 at that time, 2 if there was no memory. */
API(run) uint32_t run(uint32_t tree, double until) {
    bool is_there = simulation_run(sims[tree], (uint64_t)until, SLICE);
    return sims[tree]->is_short ? 2 : is_there;
}

/* The answers below are the texts of tools/simulate. The picture of a tree, and that of all trees as a file. */
API(picture) void picture(uint32_t tree, uint32_t width) {
    clear();
    draw_run((const struct simulation *const *)sims, mix.tree_count, tree, width, &answer);
}
API(file) void file(uint32_t width) {
    clear();
    draw_file((const struct simulation *const *)sims, mix.tree_count, width, &answer);
}
API(name) void name(uint32_t tree) {
    clear();
    text_format(&answer, "%s", mix.trees[tree].name);
}
API(flows) void flows(uint32_t tree) {
    clear();
    report_flows(sims[tree], &answer);
}
API(promises) uint32_t promises(uint32_t tree) {
    clear();
    return report_promises(sims[tree], &answer);
}

/* Sets a tree up again, with a recorder of as many events as its run had: the run does the same again. Answers the events, or 0 where a
 * session has no room for them. */
API(record) double record(uint32_t tree) {
    uint64_t events = 0;
    size_t recorded;
    qtree_events(&sims[tree]->device, &events, &recorded);
    if (events > EVENTS_MOST) {
        return 0;
    }
    simulation_close(sims[tree]);
    return open_again(tree, (uint32_t)events) ? (double)events : 0;
}
/* The script of what was recorded; 0 if there is no memory for it. */
API(session) uint32_t session(uint32_t tree) {
    size_t needed = 0;
    clear();
    qtree_recorded_script(&sims[tree]->device, NULL, 0, &needed);
    uint8_t *end = text_room(&answer, needed);
    bool is_there = end != NULL && qtree_recorded_script(&sims[tree]->device, end, needed, &needed) == QTREE_DONE;
    answer.len = is_there ? needed : 0;
    text_format(&answer, "reap\ntotals\n");
    return is_there && !answer.is_short;
}
