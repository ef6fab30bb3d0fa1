#include "setup.h"

#include "lines.h"

#include <inttypes.h>
#include <stdlib.h>
#include <string.h>

enum { MOST_UNDONE = 8, SENTENCE = 2048, SPARE = 4096 + BATCH, MTU = 1522 };

/* A limit in bytes counts as so many of the shortest frames. */
uint64_t setup_frames(const qtree_device *device) {
    uint64_t sum = 1;
    qtree_node_view node;
    for (size_t i = 0; qtree_node(device, i, &node) == QTREE_DONE; i++) {
        bool is_leaf = node.kind == QTREE_BFIFO || node.kind == QTREE_PFIFO || node.kind == QTREE_FQ_CODEL;
        uint64_t most = node.kind == QTREE_BFIFO ? node.limit / SHORTEST + 1 : is_leaf ? node.limit : 0;
        most = most > node.row.queued.packets ? most : node.row.queued.packets;
        sum += most < UINT32_MAX ? most + 1 : UINT32_MAX;
    }
    return sum;
}

static void explain(const char *file, const char *text, const qtree_undone *undone, FILE *says) {
    const char *line = text;
    uint8_t sentence[SENTENCE];
    size_t len;
    for (uint64_t i = 1; i < undone->line; i++) {
        line += strcspn(line, "\n") + 1;
    }
    if (qtree_explain((const uint8_t *)line, strcspn(line, "\n"), undone->line, undone->code, &undone->fault, sentence, sizeof sentence,
                      &len) == QTREE_DONE) {
        fprintf(says, "%s: %.*s", file, (int)len, (const char *)sentence);
    } else {
        fprintf(says, "%s:%" PRIu64 ": %s\n", file, undone->line, qtree_code_sentence(undone->code));
    }
}

/* Does the lines on a spare device, which stays open. */
static bool try_lines(qtree_device *trial, uint16_t mtu, const char *file, const char *lines, FILE *says) {
    qtree_report report;
    qtree_undone undone[MOST_UNDONE];
    if (qtree_open(trial, &(qtree_settings){ .txqueuelen = 1000, .mtu = mtu }) != QTREE_DONE) {
        fprintf(says, "%s: an allocation failed\n", file);
        return false;
    }
    qtree_code code = qtree_set_up(trial, (const uint8_t *)lines, strlen(lines), 0, &report, undone, MOST_UNDONE);
    for (size_t i = 0; code == QTREE_UNDONE && i < report.undone && i < MOST_UNDONE; i++) {
        explain(file, lines, &undone[i], says);
    }
    if (code != QTREE_DONE && code != QTREE_UNDONE) {
        fprintf(says, "%s: %s\n", file, qtree_code_sentence(code));
    }
    return code == QTREE_DONE;
}

struct wanted {
    const char *lines;
    qtree_code code;
    qtree_report report;
};

static void set_up(struct direction *way, void *with) {
    struct wanted *wanted = with;
    qtree_undone undone;
    wanted->code =
        qtree_set_up(&way->device, (const uint8_t *)wanted->lines, strlen(wanted->lines), clock_now(), &wanted->report, &undone, 1);
    direction_reap(way);
    lateness_allow(&way->lateness, &way->device);
    way->needs = setup_frames(&way->device);
}

/* Whether a direction can have its lines: they are carried out on a spare device, and while it runs there are slots for all that the tree
 * can hold, or at least as many as before. */
static bool can_have(const struct wire *wire, const struct direction *way, const char *lines, bool is_running, FILE *says) {
    qtree_device trial = QTREE_CLOSED;
    bool can = try_lines(&trial, wire->mtu, wire->file, lines, says);
    uint64_t needs = setup_frames(&trial) + SPARE;
    if (can && needs > way->pool.size) {
        fprintf(says,
                "%s: the tree of %s can hold %" PRIu64 " frames, and there are %zu slots: lower its limits, or start with -b %" PRIu64 "\n",
                wire->file, way->to, needs - SPARE, way->pool.size, needs);
        can = !is_running || needs <= way->needs + SPARE;
    }
    qtree_close(&trial);
    return can;
}

static bool give_lines(struct direction *way, char *lines, bool is_running, FILE *says) {
    struct wanted wanted = { .lines = lines };
    if (is_running) {
        direction_ask(way, set_up, &wanted);
    } else {
        set_up(way, &wanted);
    }
    fprintf(says, "dev %s: %" PRIu64 " added, %" PRIu64 " changed, %" PRIu64 " deleted\n", way->to, wanted.report.added,
            wanted.report.changed, wanted.report.deleted);
    if (wanted.code != QTREE_DONE) {
        fprintf(says, "dev %s: %s\n", way->to, qtree_code_sentence(wanted.code));
    }
    return wanted.code == QTREE_DONE;
}

bool setup_load(struct wire *wire, bool is_running, FILE *says) {
    struct direction *both = wire->both;
    char *text = lines_read(wire->file, says), *lines[2] = { NULL, NULL };
    bool can = text != NULL && lines_fit(wire->file, text, both[0].from, both[0].to, says);
    for (int i = 0; i < 2 && text != NULL; i++) {
        lines[i] = lines_for(text, both[i].to);
        can = lines[i] != NULL && can_have(wire, &both[i], lines[i], is_running, says) && can;
    }
    if (!can) {
        fprintf(says, "%s\n", is_running ? "nothing has changed" : "nothing is started");
    }
    for (int i = 0; i < 2 && can; i++) {
        can = give_lines(&both[i], lines[i], is_running, says);
    }
    free(text);
    free(lines[0]);
    free(lines[1]);
    return can;
}

uint64_t setup_needs(const struct wire *wire) {
    FILE *nowhere = fopen("/dev/null", "w");
    char *text = nowhere == NULL ? NULL : lines_read(wire->file, nowhere);
    uint64_t most = 0;
    for (int i = 0; i < 2 && text != NULL; i++) {
        qtree_device trial = QTREE_CLOSED;
        char *lines = lines_for(text, wire->both[i].to);
        if (lines != NULL && try_lines(&trial, wire->mtu, wire->file, lines, nowhere)) {
            uint64_t needs = setup_frames(&trial) + SPARE;
            most = needs > most ? needs : most;
        }
        qtree_close(&trial);
        free(lines);
    }
    free(text);
    if (nowhere != NULL) {
        fclose(nowhere);
    }
    return most;
}

/* What the tree of one card is, in a line. */
static void say_tree(const qtree_device *trial, const char *card, FILE *says) {
    qtree_node_view root;
    size_t count = 0;
    for (qtree_node_view node; qtree_node(trial, count, &node) == QTREE_DONE;) {
        count++;
    }
    qtree_node(trial, 0, &root);
    fprintf(says, "dev %s: %zu qdiscs, up to %" PRIu64 " frames", card, count, setup_frames(trial));
    if (root.kind == QTREE_TBF && root.burst > MTU && root.rate > 0) {
        fprintf(says, "; at %.6g Mbit/s its burst of %" PRIu32 " bytes lets polls be %.3g ms late", (double)root.rate / 1e6, root.burst,
                (double)(root.burst - MTU) * 8e3 / (double)root.rate);
    }
    fprintf(says, "\n");
}

bool setup_check(const char *file, FILE *says) {
    char cards[3][64], *text = lines_read(file, says);
    int count = text == NULL ? 0 : lines_cards(text, cards);
    bool is_right = text != NULL && count > 0 && count <= 2;
    if (text != NULL && !is_right) {
        fprintf(says, "%s: %s\n", file, count == 0 ? "no line has `dev` with a card" : "its lines are for more than two cards");
    }
    is_right = is_right && lines_fit(file, text, cards[0], cards[count - 1], says);
    bool is_tried = text != NULL && count > 0 && count <= 2;
    for (int i = 0; is_tried && i < count; i++) {
        qtree_device trial = QTREE_CLOSED;
        char *lines = lines_for(text, cards[i]);
        if (lines != NULL && try_lines(&trial, MTU, file, lines, says)) {
            say_tree(&trial, cards[i], says);
        } else {
            is_right = false;
        }
        qtree_close(&trial);
        free(lines);
    }
    free(text);
    return is_right;
}
