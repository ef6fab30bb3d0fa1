#include "mix.h"

#include "../c/packet_line.h"
#include "units.h"

#include <inttypes.h>
#include <stdlib.h>
#include <string.h>

static const uint64_t MS = 1000000, SECOND = 1000000000;
enum { LONGEST_RUN = 3600 };

/* A line of a mix that is being read. */
struct line {
    const uint8_t *at;
    size_t len;
    uint64_t number;
    struct reader reader;
    size_t fields[WORDS]; /* the places in the line of the words of a packet's fields */
    size_t field_count;
    struct text *faults;
};

/* The place of a word of a line, counted from 1. */
static struct word word_at(const struct line *line, size_t place) {
    struct reader reader = reader_of(line->at, line->len);
    struct word word = { line->at, 0 };
    for (size_t at = 0; at < place; at++) {
        next_word(&reader, &word);
    }
    return word;
}

/* Writes what is wrong with a word, in the form of qtree_explain, and answers false. */
static bool wrong(struct line *line, size_t place, const char *sentence) {
    struct word word = word_at(line, place);
    char head[32];
    struct text text = NO_TEXT;
    text_format(&text, "line %" PRIu64 ": ", line->number);
    size_t before = text.len + (size_t)(word.at - line->at);
    text_bytes(line->faults, text.bytes, text.len);
    text_bytes(line->faults, line->at, line->len);
    text_free(&text);
    text_bytes(line->faults, "\n", 1);
    memset(head, ' ', sizeof head);
    for (size_t some; before > 0; before -= some) {
        some = before < sizeof head ? before : sizeof head;
        text_bytes(line->faults, head, some);
    }
    for (size_t at = 0; at < (word.len == 0 ? 1 : word.len); at++) {
        text_bytes(line->faults, "^", 1);
    }
    text_format(line->faults, "\n  %s\n", sentence);
    return false;
}

static bool wrong_here(struct line *line, const char *sentence) { return wrong(line, line->reader.taken, sentence); }

/* The next word as a time or a rate. */
static bool unit_follows(struct line *line, int units, uint64_t *value) {
    static const char *const needed[] = { "This needs a time, as 20ms or 1.5s.", "This needs a rate, as 20mbit." };
    struct word word;
    return (next_word(&line->reader, &word) && word.len > 0 && read_unit(word, units, value)) ||
           wrong(line, line->reader.taken + (word.len == 0), needed[units]);
}

static bool number_follows(struct line *line, uint64_t low, uint64_t high, uint64_t *value, const char *needed) {
    struct word word;
    return (next_word(&line->reader, &word) && word.len > 0 && read_number(&line->reader, word, low, high, value)) ||
           wrong(line, line->reader.taken + (word.len == 0), needed);
}

static bool nothing_follows(struct line *line) { return line_ends(&line->reader) || wrong_here(line, "Nothing stands behind this."); }

/* What is left of a line, as a name that ends with a zero byte. */
static void name_follows(struct line *line, char *name) {
    struct word word;
    size_t len = 0;
    while (next_word(&line->reader, &word) && word.len > 0) {
        len += len > 0 && len + 1 < NAME;
        for (size_t at = 0; at < word.len && len + 1 < NAME; at++) {
            name[len++] = (char)word.at[at];
        }
        if (len + 1 < NAME) {
            name[len] = ' ';
        }
    }
    name[len] = '\0';
}

static bool tree_begins(struct mix *mix, struct line *line) {
    if (mix->tree_count == TREES) {
        return wrong_here(line, "A mix has two trees at most.");
    }
    struct tree *tree = &mix->trees[mix->tree_count++];
    name_follows(line, tree->name);
    tree->first = line->number;
    return true;
}

/* A line of tc belongs to the tree that began last. Each tree has a line for each line of the file since then, so that numbers agree. */
static void tc_line(struct mix *mix, struct line *line) {
    if (mix->tree_count == 0) {
        mix->trees[mix->tree_count++] = (struct tree){ .name = "tree", .first = line->number - 1 };
    }
    struct tree *tree = &mix->trees[mix->tree_count - 1];
    uint64_t lines = tree->first;
    for (size_t at = 0; at < tree->lines.len; at++) {
        lines += tree->lines.bytes[at] == '\n';
    }
    for (; lines + 1 < line->number; lines++) {
        text_bytes(&tree->lines, "\n", 1);
    }
    text_bytes(&tree->lines, line->at, line->len);
    text_bytes(&tree->lines, "\n", 1);
}

/* A word of a group that is no field of a packet; false if it is faulty. is_known says whether it is one. */
static bool take_word(struct line *line, struct word word, struct group *group, bool *is_known) {
    uint64_t number;
    *is_known = true;
    if (word_is(word, "tcp")) {
        group->sends = SENDS_TCP;
        if (!number_follows(line, 1, FLOWS, &number, "tcp needs the number of its flows, 1 to 64.")) {
            return false;
        }
        group->count = (uint32_t)number;
        return true;
    }
    if (word_is(word, "every") || word_is(word, "random")) {
        group->sends = word_is(word, "every") ? SENDS_EVERY : SENDS_RANDOM;
        return unit_follows(line, NS_UNITS, &group->gap);
    }
    if (word_is(word, "rate")) {
        group->sends = SENDS_RATE;
        return unit_follows(line, BIT_UNITS, &group->gap);
    }
    if (word_is(word, "len")) {
        bool is_read = number_follows(line, 1, UINT16_MAX, &number, "len needs the bytes of a packet, 1 to 65535.");
        group->len = is_read ? (uint32_t)number : 0;
        return is_read;
    }
    uint64_t *time = word_is(word, "rtt")     ? &group->rtt
                     : word_is(word, "start") ? &group->start
                     : word_is(word, "stop")  ? &group->stop
                                              : NULL;
    *is_known = time != NULL;
    return time == NULL || unit_follows(line, NS_UNITS, time);
}

/* What is left to say of a group, once its line was read. */
static bool complete(struct line *line, struct group *group) {
    if (group->sends == SENDS_NOTHING) {
        return wrong(line, 1, "How does it send? By tcp N, every TIME, random TIME or rate RATE.");
    }
    if (group->len == 0) {
        group->len = group->sends == SENDS_TCP || group->sends == SENDS_RATE ? 1500 : 200;
    }
    if (group->sends == SENDS_RATE) {
        group->gap = group->gap == 0 ? 0 : group->len * 8 * SECOND / group->gap;
    }
    if ((group->sends != SENDS_TCP && group->gap == 0) || (group->sends == SENDS_TCP && group->rtt == 0)) {
        return wrong(line, 1, "A packet needs a nanosecond at least, and a rate of 0 sends none.");
    }
    return true;
}

/* Says whether a field was given. */
static bool is_given(const struct line *line, const char *name) {
    for (size_t at = 0; at < line->field_count; at += 2) {
        if (word_is(word_at(line, line->fields[at]), name)) {
            return true;
        }
    }
    return false;
}

/* The packet's fields as behind `pkt`, with those that were not given: a sender has an address of its own, and a flow a port. */
static void write_fields(const struct line *line, const struct group *group, size_t index, unsigned flow, struct text *text) {
    bool is_six = false;
    text_format(text, "%u", (unsigned)group->len);
    for (size_t at = 0; at < line->field_count; at++) {
        struct word word = word_at(line, line->fields[at]);
        is_six = is_six || (at % 2 == 1 && memchr(word.at, ':', word.len) != NULL);
        text_bytes(text, " ", 1);
        text_bytes(text, word.at, word.len);
    }
    if (!is_given(line, "src_ip")) {
        text_format(text, is_six ? " src_ip 2001:db8::%u" : " src_ip 192.0.2.%u", (unsigned)index + 10);
    }
    if (!is_given(line, "dst_ip")) {
        text_format(text, is_six ? " dst_ip 2001:db8:1::%u" : " dst_ip 198.51.100.%u", 1u);
    }
    if (!is_given(line, "ip_proto")) {
        text_format(text, " ip_proto %s", group->sends == SENDS_TCP ? "tcp" : "udp");
    }
    if (!is_given(line, "src_port")) {
        text_format(text, " src_port %u", 40000 + 100 * (unsigned)index + flow);
    }
}

static bool add_flows(struct mix *mix, struct line *line, const struct group *group) {
    if (mix->flow_count + group->count > FLOWS) {
        return wrong(line, 1, "A mix has 64 flows at most.");
    }
    for (unsigned flow = 0; flow < group->count; flow++) {
        struct text text = NO_TEXT;
        write_fields(line, group, mix->group_count, flow, &text);
        struct reader reader = reader_of(text.bytes, text.len);
        qtree_packet packet = { 0 };
        bool is_read = !text.is_short && read_packet(&reader, 0, &packet);
        text_free(&text);
        if (!is_read) {
            size_t at = reader.fault.word < 2 ? 0 : reader.fault.word - 2;
            return wrong(line, at < line->field_count ? line->fields[at] : 1,
                         "This is no word of a sender and no field of a packet, or the field has no such value.");
        }
        packet.port = (uint32_t)mix->flow_count;
        mix->group_of[mix->flow_count] = (uint32_t)mix->group_count;
        mix->flows[mix->flow_count++] = packet;
    }
    return true;
}

/* A line NAME: WORDS. */
static bool group_line(struct mix *mix, struct line *line, struct word first) {
    struct group group = { .count = 1, .rtt = 30 * MS, .stop = UINT64_MAX, .first_flow = mix->flow_count };
    if (mix->group_count == GROUPS) {
        return wrong_here(line, "A mix has eight lines of senders at most.");
    }
    size_t len = first.len < NAME ? first.len - 1 : NAME - 1;
    memcpy(group.name, first.at, len);
    for (struct word word; next_word(&line->reader, &word) && word.len > 0 && word.at[0] != '#';) {
        bool is_known;
        if (!take_word(line, word, &group, &is_known)) {
            return false;
        }
        if (!is_known && line->field_count + 2 <= WORDS) {
            line->fields[line->field_count++] = line->reader.taken;
            next_word(&line->reader, &word);
            if (word.len == 0) {
                return wrong_here(
                    line,
                    "This needs a value behind it; known are tcp, every, random, rate, len, rtt, start, stop, and a packet's fields.");
            }
            line->fields[line->field_count++] = line->reader.taken;
        }
    }
    if (!complete(line, &group) || !add_flows(mix, line, &group)) {
        return false;
    }
    mix->groups[mix->group_count++] = group;
    return true;
}

static bool setting_line(struct mix *mix, struct line *line, struct word first) {
    uint64_t number;
    if (word_is(first, "seconds")) {
        bool is_read = number_follows(line, 1, LONGEST_RUN, &number, "seconds needs how long the run takes, 1 to 3600.");
        mix->last = is_read ? number * SECOND : mix->last;
        return is_read && nothing_follows(line);
    }
    if (word_is(first, "mtu")) {
        bool is_read = number_follows(line, 1, UINT16_MAX, &number, "mtu needs the bytes of the longest packet, 1 to 65535.");
        mix->mtu = is_read ? (uint16_t)number : mix->mtu;
        return is_read && nothing_follows(line);
    }
    if (word_is(first, "seed")) {
        return number_follows(line, 0, UINT32_MAX, &mix->seed, "seed needs a number, 0 to 4294967295.") && nothing_follows(line);
    }
    if (word_is(first, "link")) {
        return unit_follows(line, BIT_UNITS, &mix->link) && nothing_follows(line);
    }
    if (word_is(first, "late")) {
        return unit_follows(line, NS_UNITS, &mix->late) && nothing_follows(line);
    }
    return wrong_here(
        line, "A line begins with tc, tree, seconds, link, late, seed, mtu, or with a name and a colon, as call: every 20ms len 200.");
}

static bool any_line(struct mix *mix, struct line *line) {
    struct word first;
    if (!next_word(&line->reader, &first)) {
        return wrong_here(line, "This is not UTF-8.");
    }
    if (first.len == 0 || first.at[0] == '#') {
        return true;
    }
    if (word_is(first, "tc")) {
        tc_line(mix, line);
        return true;
    }
    if (word_is(first, "tree")) {
        return tree_begins(mix, line);
    }
    return first.len > 1 && first.at[first.len - 1] == ':' ? group_line(mix, line, first) : setting_line(mix, line, first);
}

/* Tries the lines of a tree on a device of its own. */
static bool try_tree(const struct mix *mix, const struct tree *tree, struct text *faults) {
    qtree_device device = QTREE_CLOSED;
    const qtree_settings settings = { 1000, 0, mix->mtu };
    bool is_right = qtree_open(&device, &settings) == QTREE_DONE;
    const uint8_t *line = tree->lines.bytes;
    for (size_t left = tree->lines.len, number = tree->first + 1, len; left > 0; left -= len + 1, line += len + 1, number++) {
        qtree_fault fault = { 0, 0 };
        len = (size_t)((const uint8_t *)memchr(line, '\n', left) - line);
        qtree_code code = len == 0 ? QTREE_DONE : qtree_command(&device, line, len, 0, &fault);
        size_t needed = 0;
        if (code == QTREE_DONE) {
            continue;
        }
        is_right = false;
        qtree_explain(line, len, number, code, &fault, NULL, 0, &needed);
        uint8_t *end = text_room(faults, needed);
        if (end != NULL && qtree_explain(line, len, number, code, &fault, end, needed, &needed) == QTREE_DONE) {
            faults->len += needed;
        }
    }
    qtree_close(&device);
    return is_right;
}

bool mix_read(struct mix *mix, const uint8_t *bytes, size_t len, struct text *faults) {
    *mix = (struct mix){ .last = 20 * SECOND, .seed = 1, .mtu = 1514 };
    bool is_right = true;
    for (uint64_t number = 1; len > 0; number++) {
        const uint8_t *end = memchr(bytes, '\n', len);
        size_t of_line = end == NULL ? len : (size_t)(end - bytes);
        struct line line = { .at = bytes, .len = of_line, .number = number, .reader = reader_of(bytes, of_line), .faults = faults };
        is_right = any_line(mix, &line) && is_right;
        of_line += end != NULL;
        bytes += of_line;
        len -= of_line;
    }
    for (size_t at = 0; at < mix->tree_count; at++) {
        is_right = try_tree(mix, &mix->trees[at], faults) && is_right;
    }
    if (is_right && (mix->tree_count == 0 || mix->group_count == 0)) {
        text_format(faults, "a mix needs lines of tc, and a line of a sender\n");
        is_right = false;
    }
    return is_right && !faults->is_short;
}

void mix_free(struct mix *mix) {
    for (size_t at = 0; at < TREES; at++) {
        text_free(&mix->trees[at].lines);
    }
}
