/* Calls every function of the header with libFuzzer's input, on two devices and two rings. It stops if a function returns a number that
 * the header does not name for it, writes memory that it was not given, or if the counters do not add up.
 *
 *     make fuzz                 100,000 calls or more
 *     make fuzz RUNS=1000000    10,000,000 calls or more */
#include "check.h"
#include "qtree.h"

#include <string.h>

enum { PLACES = 8, GUARD = 0x5a, MOST_CALLS = 64 };

/* What is left of the input. After its end zeros are read. */
struct input {
    const uint8_t *at;
    size_t left;
};

static unsigned long long calls;

static void tell_calls(void) { fprintf(stderr, "fuzz: %llu calls\n", calls); }

static uint64_t take(struct input *input, size_t bytes) {
    uint64_t value = 0;
    for (; bytes > 0; bytes--) {
        value = value << 8 | (input->left > 0 ? *input->at : 0);
        input->at += input->left > 0 ? 1 : 0;
        input->left -= input->left > 0 ? 1 : 0;
    }
    return value;
}

/* The ends of two rings. */
static qtree_port ports[2];
static qtree_outlet outlets[2];

/* A time, mostly a small one. */
static uint64_t a_time(struct input *input) {
    switch (take(input, 1) % 8) {
    case 0: return take(input, 8);
    case 1: return QTREE_MOMENT_MAX + take(input, 1) - 1;
    default: return take(input, 4);
    }
}

static qtree_packet packet(struct input *input) {
    qtree_packet made = { 0 };
    uint64_t kind = take(input, 1);
    if (kind % 8 == 0) {
        for (size_t i = 0; i < sizeof made; i++) {
            ((uint8_t *)&made)[i] = (uint8_t)take(input, 1);
        }
    } else {
        made.len = (uint16_t)(1 + kind * 6);
        made.family = kind % 2 == 0 ? 0 : 4;
        made.src_low = kind % 2 == 0 ? 0 : 0x0a000000 + kind % 4;
        made.prio = (uint8_t)take(input, 1) % 17;
        made.ecn = (uint8_t)kind % 4;
        made.hash = (uint32_t)take(input, 1);
    }
    return made;
}

/* The padding after the last field is no part of a packet. */
static bool same_packet(const qtree_packet *a, const qtree_packet *b) { return memcmp(a, b, offsetof(qtree_packet, ecn) + 1) == 0; }

static size_t known_line(struct input *input, char *line, size_t room) {
    static const char *const forms[] = {
        "tc qdisc add dev a root handle 1: prio bands %u",
        "tc qdisc add dev a root handle 1: drr",
        "tc qdisc add dev a root handle 1: tbf rate %ukbit burst 3000 latency 50ms",
        "tc qdisc add dev a parent 1:%u handle 2: fq_codel limit 20 flows 4",
        "tc qdisc add dev a parent 1:%u handle 3: pfifo limit 4",
        "tc qdisc add dev a parent 1:%u handle 4: bfifo limit 4000",
        "tc qdisc change dev a handle 2: fq_codel limit %u",
        "tc class add dev a parent 1: classid 1:%u drr quantum 1500",
        "tc class del dev a classid 1:%u",
        "tc filter add dev a parent 1: prio %u flower src_ip 10.0.0.0/8 classid 1:1",
        "tc filter del dev a parent 1: prio %u",
        "tc qdisc del dev a parent 1:%u",
        "tc qdisc del dev a root",
        "tc qdisc show dev a %u",
        "pkt %u",
    };
    unsigned number = (unsigned)take(input, 1) % 20;
    int len = snprintf(line, room, forms[take(input, 1) % (sizeof forms / sizeof forms[0])], number);
    return len < 0 ? 0 : (size_t)len;
}

static void command(qtree_device *device, struct input *input) {
    char line[256];
    size_t len = 0;
    if (take(input, 1) % 4 == 0) {
        len = (size_t)take(input, 1);
        for (size_t i = 0; i < len; i++) {
            line[i] = (char)take(input, 1);
        }
    } else {
        len = known_line(input, line, sizeof line);
        size_t spoilt = (size_t)take(input, 1);
        if (spoilt < len) {
            line[spoilt] = (char)take(input, 1);
        }
    }
    qtree_fault fault = { 7, 7 };
    qtree_code code = qtree_command(device, (const uint8_t *)line, len, a_time(input), &fault);
    CHECK(code == QTREE_DONE || (code >= QTREE_REFUSED_NO_PARENT && code <= QTREE_REFUSED_NO_FILTER) || code == QTREE_FAULTY ||
          code == QTREE_NO_COMMAND || code == QTREE_OUT_OF_RANGE || code == QTREE_IS_CLOSED || code == QTREE_MEMORY);
    CHECK(code == QTREE_FAULTY ? fault.number >= 1 && fault.number <= 6 && fault.word >= 1 : fault.number == 7 && fault.word == 7);
    size_t needed;
    bool is_other = qtree_explain((const uint8_t *)line, len, 1, QTREE_NO_COMMAND, &fault, NULL, 0, &needed) == QTREE_ROOM;
    CHECK(code == QTREE_OUT_OF_RANGE || code == QTREE_IS_CLOSED || is_other == (code == QTREE_NO_COMMAND));
}

static void show(qtree_device *device, struct input *input) {
    uint8_t text[600];
    size_t room = (size_t)take(input, 2) % 512, needed = 7;
    uint32_t what = (uint32_t)take(input, 1) % 5;
    memset(text, GUARD, sizeof text);
    qtree_code code = qtree_show(device, what, text, room, &needed);
    CHECK(code == QTREE_DONE || code == QTREE_ROOM || code == QTREE_OUT_OF_RANGE || code == QTREE_IS_CLOSED || code == QTREE_MEMORY);
    CHECK((code == QTREE_OUT_OF_RANGE) == (what > QTREE_SHOW_FILTERS));
    CHECK(code != QTREE_DONE || needed <= room);
    CHECK(code != QTREE_ROOM || needed > room);
    for (size_t i = code == QTREE_DONE ? needed : 0; i < sizeof text; i++) {
        CHECK(text[i] == GUARD);
    }
}

/* A packet arrives by its first bytes. */
static void arrive_frame(qtree_device *device, struct input *input) {
    uint8_t bytes[80];
    size_t count = (size_t)take(input, 1) % sizeof bytes;
    for (size_t i = 0; i < count; i++) {
        bytes[i] = (uint8_t)take(input, 1);
    }
    uint16_t len = (uint16_t)take(input, 2);
    uint64_t at = a_time(input), how = take(input, 1) % 3;
    uint32_t hash = (uint32_t)take(input, 4);
    qtree_code code = how == 0   ? qtree_arrive_frame(device, bytes, count, len, 7, hash, at)
                      : how == 1 ? qtree_arrive_frame_seeded(device, bytes, count, len, 7, hash, at)
                                 : qtree_arrive_frame_numbered(device, bytes, count, len, 7, at, hash, at);
    CHECK(code <= QTREE_LOST_OVER_LIMIT || code == QTREE_OUT_OF_RANGE || code == QTREE_IS_CLOSED || code == QTREE_MEMORY);
    CHECK(code == QTREE_IS_CLOSED || (code == QTREE_OUT_OF_RANGE) == (len == 0 || at > QTREE_MOMENT_MAX));
}

static void arrive_many(qtree_device *device, struct input *input) {
    qtree_packet packets[PLACES];
    uint8_t codes[PLACES + 8];
    size_t count = (size_t)take(input, 1) % (PLACES + 1), room = (size_t)take(input, 1) % (PLACES + 1), done = 99;
    for (size_t i = 0; i < count; i++) {
        packets[i] = packet(input);
    }
    memset(codes, GUARD, sizeof codes);
    qtree_code code = qtree_arrive_many(device, packets, count, codes, room, &done, a_time(input));
    CHECK(code == QTREE_DONE || code == QTREE_OUT_OF_RANGE || code == QTREE_ROOM || code == QTREE_IS_CLOSED || code == QTREE_MEMORY);
    CHECK(done <= count && (code != QTREE_DONE || done == count) && (code != QTREE_ROOM || room < count));
    for (size_t i = 0; i < sizeof codes; i++) {
        CHECK(i < done ? codes[i] == QTREE_DONE || qtree_is_loss(codes[i]) : codes[i] == GUARD);
    }
}

static void poll_many(qtree_device *device, struct input *input) {
    qtree_packet packets[PLACES + 1];
    size_t room = (size_t)take(input, 1) % (PLACES + 1), count = 99;
    memset(packets, GUARD, sizeof packets);
    qtree_code code = qtree_poll_many(device, a_time(input), packets, room, &count);
    CHECK(code == QTREE_DONE || code == QTREE_IDLE || code == QTREE_LATER || code == QTREE_OUT_OF_RANGE || code == QTREE_IS_CLOSED);
    CHECK(count <= room && (code != QTREE_DONE || count == room));
    for (size_t i = count * sizeof packets[0]; i < sizeof packets; i++) {
        CHECK(((uint8_t *)packets)[i] == GUARD);
    }
}

static void poll_bufs(qtree_device *device, struct input *input) {
    qtree_sent sent[PLACES + 1];
    size_t room = (size_t)take(input, 1) % (PLACES + 1), count = 99;
    memset(sent, GUARD, sizeof sent);
    qtree_code code = qtree_poll_bufs(device, a_time(input), sent, room, &count);
    CHECK(code == QTREE_DONE || code == QTREE_IDLE || code == QTREE_LATER || code == QTREE_OUT_OF_RANGE || code == QTREE_IS_CLOSED);
    CHECK(count <= room && (code != QTREE_DONE || count == room));
    for (size_t i = count * sizeof sent[0]; i < sizeof sent; i++) {
        CHECK(((uint8_t *)sent)[i] == GUARD);
    }
    qtree_sent one = { .len = 0 };
    code = qtree_poll_buf(device, a_time(input), &one);
    CHECK(code == QTREE_DONE || code == QTREE_IDLE || code == QTREE_LATER || code == QTREE_OUT_OF_RANGE || code == QTREE_IS_CLOSED);
    CHECK((code == QTREE_DONE) == (one.len > 0) && one.ecn <= 3);
}

static void reap(qtree_device *device, struct input *input) {
    qtree_loss losses[PLACES + 1];
    size_t room = (size_t)take(input, 1) % (PLACES + 1), count = 99;
    memset(losses, GUARD, sizeof losses);
    qtree_code code = qtree_reap_many(device, losses, room, &count);
    CHECK(code == QTREE_DONE || code == QTREE_NOTHING || code == QTREE_IS_CLOSED);
    CHECK(count <= room && (code != QTREE_DONE || count == room));
    for (size_t i = 0; i < count; i++) {
        CHECK(qtree_is_loss(losses[i].cause));
    }
    code = qtree_reap(device, losses);
    CHECK(code == QTREE_DONE || code == QTREE_NOTHING || code == QTREE_IS_CLOSED);
}

/* One packet arrives, the device is asked for the time of the next one, and one packet is polled for. */
static void single(qtree_device *device, struct input *input) {
    qtree_packet one = packet(input);
    uint64_t at = 7;
    uint64_t now = a_time(input);
    qtree_code code = qtree_arrive(device, &one, now);
    CHECK(code <= QTREE_LOST_OVER_LIMIT || code == QTREE_OUT_OF_RANGE || code == QTREE_IS_CLOSED || code == QTREE_MEMORY);
    CHECK(code == QTREE_IS_CLOSED || (code == QTREE_OUT_OF_RANGE) == (qtree_out_of_range(&one, now) != NULL));
    code = qtree_ready_at(device, &at);
    CHECK(code == QTREE_DONE || code == QTREE_NOTHING || code == QTREE_IS_CLOSED);
    CHECK(code == QTREE_DONE ? at <= QTREE_MOMENT_MAX : at == 7);
    qtree_row row;
    uint64_t most = 7;
    code = qtree_most_packets(device, &most);
    CHECK(code == QTREE_DONE ? qtree_totals(device, &row) == QTREE_DONE && row.queued.packets <= most : code == QTREE_IS_CLOSED && most == 7);
    code = qtree_poll(device, a_time(input), &one);
    CHECK(code == QTREE_DONE || code == QTREE_IDLE || code == QTREE_LATER || code == QTREE_OUT_OF_RANGE || code == QTREE_IS_CLOSED);
}

static void open_or_close(qtree_device *device, struct input *input) {
    qtree_settings settings = { (uint32_t)take(input, 1), (uint32_t)take(input, 1) % 64, (uint16_t)(take(input, 2) % 3000) };
    if (take(input, 1) % 16 == 0) {
        settings.recorder = (uint32_t)take(input, 4) | 1u << 31;
    }
    qtree_code code = qtree_open(device, &settings);
    CHECK(code == QTREE_DONE || code == QTREE_IS_OPEN || code == QTREE_OUT_OF_RANGE || code == QTREE_MEMORY);
    if (code == QTREE_IS_OPEN && take(input, 1) % 4 == 0) {
        qtree_close(device);
        CHECK(qtree_reap(device, &(qtree_loss){ 0 }) == QTREE_IS_CLOSED);
    }
}

/* After a mark the same fields are read from the header as before, but for the codepoint, and few bytes have changed. */
static void mark(uint8_t *bytes, size_t count, const qtree_packet *one) {
    uint8_t before[80];
    qtree_packet marked = *one;
    memcpy(before, bytes, sizeof before);
    bool is_marked = qtree_mark_head(bytes, count);
    CHECK(is_marked == (one->ecn != 0));
    qtree_read_head(bytes, count, 0, &marked);
    marked.ecn = is_marked ? one->ecn : marked.ecn;
    CHECK(same_packet(&marked, one));
    for (size_t i = 0; i < sizeof before; i++) {
        CHECK(bytes[i] == before[i] || (is_marked && (i == 1 || i == 10 || i == 11)));
    }
}

/* A text is written whole or not at all, and nothing beside it. */
static void is_lent(qtree_code code, const uint8_t *text, size_t size, size_t room, size_t needed) {
    CHECK(code == QTREE_DONE || code == QTREE_ROOM || code == QTREE_NOTHING || code == QTREE_IS_CLOSED || code == QTREE_MEMORY);
    CHECK(code == QTREE_DONE ? needed <= room : code == QTREE_ROOM ? needed > room : needed == 0);
    for (size_t i = code == QTREE_DONE ? needed : 0; i < size; i++) {
        CHECK(text[i] == GUARD);
    }
}

/* The lines of recorded events, and their script. */
static void read_recorder(qtree_device *device, struct input *input) {
    uint8_t text[3000];
    size_t room = (size_t)take(input, 2) % sizeof text, needed = 7;
    memset(text, GUARD, sizeof text);
    is_lent(qtree_recorded_script(device, text, room, &needed), text, sizeof text, room, needed);
    memset(text, GUARD, sizeof text);
    needed = 7;
    is_lent(qtree_recorded_line(device, (size_t)take(input, 1) % 32, text, room, &needed), text, sizeof text, room, needed);
}

/* The last events, of which there are as many as were noted and as are kept, and their lines. */
static void read_last(qtree_device *device, struct input *input) {
    uint8_t text[1100];
    size_t room = (size_t)take(input, 1), needed = 7, kept = 7, index = (size_t)take(input, 1) % 32;
    uint64_t noted = 7;
    qtree_event event = { .moment = UINT64_MAX };
    qtree_code code = qtree_last_noted(device, &noted, &kept);
    CHECK(code == QTREE_DONE ? kept <= noted : code == QTREE_IS_CLOSED && noted == 0 && kept == 0);
    code = qtree_last_event(device, index, &event);
    CHECK(index < kept ? code == QTREE_DONE : code == QTREE_NOTHING || code == QTREE_IS_CLOSED);
    CHECK(code == QTREE_DONE ? event.kind <= QTREE_COMMANDED && event.moment <= QTREE_MOMENT_MAX : event.moment == UINT64_MAX);
    memset(text, GUARD, sizeof text);
    is_lent(qtree_last_line(device, index, text, room, &needed), text, sizeof text, room, needed);
}

/* Others are kept from now on, and none of those that were kept before. */
static void keep_last(qtree_device *device, struct input *input) {
    uint32_t places = (uint32_t)take(input, 1) % 32;
    uint64_t noted = 7;
    size_t kept = 7;
    if (take(input, 1) % 16 == 0) {
        places = 1000001 + (uint32_t)take(input, 3);
    }
    qtree_code code = qtree_keep_last(device, places);
    CHECK(code == QTREE_DONE || code == QTREE_OUT_OF_RANGE || code == QTREE_IS_CLOSED || code == QTREE_MEMORY);
    CHECK((code == QTREE_OUT_OF_RANGE) == (places > 1000000));
    CHECK(qtree_last_noted(device, &noted, &kept) == QTREE_IS_CLOSED || code != QTREE_DONE || (noted == 0 && kept == 0));
    read_last(device, input);
}

/* What a class is promised is a share of the link; nothing is written where it is promised nothing. */
static void promised(qtree_device *device, struct input *input) {
    qtree_promise promise = { 7, 7, 7, 7 };
    uint64_t late = 7;
    uint32_t place = (uint32_t)take(input, 1) % 4;
    uint16_t major = (uint16_t)take(input, 1), minor = (uint16_t)take(input, 1);
    qtree_code code = qtree_service(device, place, major, minor, &promise);
    CHECK(code == QTREE_DONE || code == QTREE_NOTHING || code == QTREE_OUT_OF_RANGE || code == QTREE_IS_CLOSED);
    CHECK(code == QTREE_DONE ? promise.rate <= promise.link && promise.part <= 1000000000 : promise.link == 7 && promise.slack == 7);
    CHECK(qtree_lateness(device, place, major, minor, &late) == code);
    CHECK(code == QTREE_DONE ? (promise.link == 0) == (late == UINT64_MAX) : late == 7);
}

/* A delay has a time and a lateness or neither; nothing is written where nothing is promised. */
static void delayed(qtree_device *device, struct input *input) {
    qtree_delay delay = { 7, 7, 7 };
    uint32_t place = (uint32_t)take(input, 1) % 4;
    uint16_t major = (uint16_t)take(input, 1), minor = (uint16_t)take(input, 1);
    qtree_code code = qtree_worst(device, place, major, minor, &delay);
    CHECK(code == QTREE_DONE || code == QTREE_NOTHING || code == QTREE_OUT_OF_RANGE || code == QTREE_IS_CLOSED);
    if (code == QTREE_DONE) {
        CHECK((delay.ns == UINT64_MAX) == (delay.late == UINT64_MAX) && (delay.ns == UINT64_MAX || delay.ns <= QTREE_MOMENT_MAX));
    } else {
        CHECK(delay.bytes == 7 && delay.ns == 7 && delay.late == 7);
    }
}

/* A departure has a time and a lateness or neither. What comes next leaves no sooner, and has its own bytes more before it has left; in a class of a
 * drr it may have the grants of other classes more. Nothing is written where nothing is promised. */
static void departing(qtree_device *device, struct input *input) {
    qtree_departure departure = { 7, 7, 7 }, last = { 7, 7, 7 };
    uint32_t place = (uint32_t)take(input, 1) % 4;
    uint16_t major = (uint16_t)take(input, 1), minor = (uint16_t)take(input, 1), len = (uint16_t)take(input, 2);
    qtree_code code = qtree_latest(device, place, major, minor, len, &departure);
    CHECK(code == QTREE_DONE || code == QTREE_NOTHING || code == QTREE_OUT_OF_RANGE || code == QTREE_IS_CLOSED);
    if (code == QTREE_DONE) {
        CHECK(qtree_latest(device, place, major, minor, 0, &last) == QTREE_DONE && last.bytes + len <= departure.bytes);
        CHECK(last.at <= departure.at && last.late == departure.late);
        CHECK((departure.at == UINT64_MAX) == (departure.late == UINT64_MAX) && (departure.at == UINT64_MAX || departure.at <= QTREE_MOMENT_MAX));
    } else {
        CHECK(departure.bytes == 7 && departure.at == 7 && departure.late == 7);
    }
}

/* Qdiscs and classes by their indexes: there are as many as can be asked for in a row, and each is one that the header describes. */
static void read_nodes(const qtree_device *device, struct input *input) {
    qtree_node_view node, beside;
    qtree_class_view class;
    memset(&node, GUARD, sizeof node);
    memset(&beside, GUARD, sizeof beside);
    size_t index = (size_t)take(input, 1) % 16, which = (size_t)take(input, 1) % 8;
    qtree_code code = qtree_node(device, take(input, 1) % 16 == 0 ? SIZE_MAX : index, &node);
    CHECK(code == QTREE_DONE || code == QTREE_NOTHING || code == QTREE_IS_CLOSED);
    if (code == QTREE_DONE) {
        CHECK(node.kind >= QTREE_PFIFO && node.kind <= QTREE_FQ_CODEL && node.place == (index == 0 ? QTREE_ROOT : QTREE_CLASS));
        CHECK(node.ecn <= 1 && node.bands <= 16 && (node.handle == 0 || node.handle <= 0xfffe));
        CHECK((uint64_t)node.new_flows + node.old_flows <= node.flows && (node.kind == QTREE_FQ_CODEL || node.flows == 0));
        CHECK(index == 0 || qtree_node(device, index - 1, &beside) == QTREE_DONE);
    } else {
        CHECK(memcmp(&node, &beside, sizeof node) == 0);
    }
    memset(&class, GUARD, sizeof class);
    code = qtree_class(device, index, which, &class);
    CHECK(code == QTREE_DONE || code == QTREE_NOTHING || code == QTREE_IS_CLOSED);
    if (code == QTREE_DONE) {
        CHECK(qtree_node(device, index, &node) == QTREE_DONE && class.kind == node.kind && class.major == node.handle);
        CHECK(class.active <= 1 && (class.active == 1 || class.deficit == 0) && (class.kind == QTREE_DRR) == (class.quantum > 0));
    }
}

/* Names, and the sentence of any answer on a line, are written whole or not at all. */
static void read_words(const uint8_t *line, size_t len, struct input *input) {
    uint8_t text[600];
    uint32_t what = (uint32_t)take(input, 1) % 4, number = (uint32_t)take(input, take(input, 1) % 8 == 0 ? 4 : 1) % 96;
    size_t room = (size_t)take(input, 2) % sizeof text, needed = 7;
    memset(text, GUARD, sizeof text);
    qtree_code code = qtree_name_of(what, number, text, room, &needed);
    CHECK((code == QTREE_OUT_OF_RANGE) == (what > QTREE_NAME_KIND));
    is_lent(code == QTREE_OUT_OF_RANGE ? QTREE_NOTHING : code, text, sizeof text, room, needed);
    qtree_fault fault = { (size_t)take(input, 1), (uint32_t)take(input, 1) % 9 };
    memset(text, GUARD, sizeof text);
    needed = 7;
    code = qtree_explain(line, len, take(input, 1), number, &fault, text, room, &needed);
    is_lent(code == QTREE_OUT_OF_RANGE ? QTREE_NOTHING : code, text, sizeof text, room, needed);
    bool is_fault = number == QTREE_FAULTY && fault.number >= 1 && fault.number <= 6;
    bool is_refusal = (number >= QTREE_REFUSED_NO_PARENT && number <= QTREE_REFUSED_NO_FILTER) || number == QTREE_MEMORY;
    CHECK(number == QTREE_NO_COMMAND || (code == QTREE_OUT_OF_RANGE) == !(is_fault || is_refusal));
}

static void look(qtree_device *device, struct input *input) {
    qtree_row row;
    qtree_event event;
    uint64_t events = 7;
    size_t recorded = 7;
    qtree_code code = qtree_stats(device, (uint32_t)take(input, 1) % 4, (uint16_t)take(input, 1), (uint16_t)take(input, 1), &row);
    CHECK(code == QTREE_DONE || code == QTREE_NOTHING || code == QTREE_OUT_OF_RANGE || code == QTREE_IS_CLOSED);
    promised(device, input);
    delayed(device, input);
    departing(device, input);
    code = qtree_events(device, &events, &recorded);
    CHECK(code == QTREE_DONE ? recorded <= events : code == QTREE_IS_CLOSED && events == 0 && recorded == 0);
    code = qtree_recorded(device, (size_t)take(input, 1), &event);
    CHECK(code == QTREE_DONE ? event.kind <= QTREE_COMMANDED : code == QTREE_NOTHING || code == QTREE_IS_CLOSED);
    read_recorder(device, input);
    read_last(device, input);
    qtree_packet one = packet(input);
    uint8_t bytes[80] = { 0 };
    size_t count = (size_t)take(input, 1) % sizeof bytes;
    for (size_t i = 0; i < count; i++) {
        bytes[i] = (uint8_t)take(input, 1);
    }
    read_nodes(device, input);
    read_words(bytes, count, input);
    size_t at = qtree_ip_at(bytes, count);
    CHECK((at == 0 || at == 14 || at == 18 || at == 22) && at <= count);
    code = qtree_hash((uint32_t)take(input, 1), &one);
    CHECK(code == QTREE_DONE || code == QTREE_OUT_OF_RANGE);
    qtree_packet hashed = one, bare = one;
    qtree_read_head(bytes, count, 0, &one);
    qtree_read_fields_hashed(bytes, count, one.hash, &hashed);
    qtree_read_fields(bytes, count, &bare);
    CHECK(same_packet(&hashed, &one) && bare.hash == 0);
    bare.hash = one.hash;
    CHECK(same_packet(&bare, &one));
    mark(bytes, count, &one);
    CHECK(one.prio <= 15 && one.ecn <= 3 && (one.family == 0 || one.family == 4 || one.family == 6));
}

static void open_or_close_ring(qtree_device *device, struct input *input) {
    (void)device;
    size_t port = (size_t)take(input, 1) % 2, outlet = (size_t)take(input, 1) % 2, places = (size_t)take(input, 1) % PLACES;
    if (take(input, 1) % 16 == 0) {
        places = (size_t)take(input, 4);
    }
    qtree_code code = qtree_ring_open(&ports[port], &outlets[outlet], (uint32_t)take(input, 1), places);
    CHECK(code == QTREE_DONE || code == QTREE_IS_OPEN || code == QTREE_OUT_OF_RANGE || code == QTREE_MEMORY);
    CHECK(code != QTREE_DONE || (places >= 1 && places <= 65536));
    if (code == QTREE_IS_OPEN && take(input, 1) % 4 == 0) {
        qtree_port_close(&ports[port]);
        CHECK(qtree_offer(&ports[port], &(qtree_packet){ .len = 1 }) == QTREE_IS_CLOSED);
    }
    if (code == QTREE_IS_OPEN && take(input, 1) % 4 == 0) {
        qtree_outlet_close(&outlets[outlet]);
    }
}

/* Packets are offered to a ring, and each that is placed is in its share. */
static void offer(qtree_device *device, struct input *input) {
    (void)device;
    qtree_port *port = &ports[take(input, 1) % 2];
    for (uint64_t left = take(input, 1) % PLACES; left > 0; left--) {
        qtree_packet given = packet(input), kept = given;
        qtree_count before = { 0, 0 }, after = { 0, 0 };
        qtree_code shared = qtree_port_share(port, &before), code = qtree_offer(port, &given);
        CHECK(same_packet(&given, &kept) && qtree_port_share(port, &after) == shared);
        CHECK(code == QTREE_DONE || code == QTREE_FULL || code == QTREE_OUT_OF_RANGE || code == QTREE_IS_CLOSED);
        CHECK((code == QTREE_IS_CLOSED) == (shared == QTREE_IS_CLOSED));
        CHECK(after.packets == before.packets + (code == QTREE_DONE));
        CHECK(after.bytes == before.bytes + (code == QTREE_DONE ? given.len : 0));
    }
}

/* Packets are placed up to the first that is out of range or finds no place, and those that are placed are in the share. */
static void offer_many(qtree_device *device, struct input *input) {
    (void)device;
    qtree_port *port = &ports[take(input, 1) % 2];
    qtree_packet packets[3 * PLACES];
    size_t count = (size_t)take(input, 1) % (3 * PLACES + 1), placed = 99;
    uint64_t bytes = 0;
    for (size_t i = 0; i < count; i++) {
        packets[i] = packet(input);
    }
    qtree_count before = { 0, 0 }, after = { 0, 0 };
    qtree_code shared = qtree_port_share(port, &before), code = qtree_offer_many(port, packets, count, &placed);
    CHECK(code == QTREE_DONE || code == QTREE_FULL || code == QTREE_OUT_OF_RANGE || code == QTREE_IS_CLOSED);
    CHECK((code == QTREE_IS_CLOSED) == (shared == QTREE_IS_CLOSED) && (code != QTREE_IS_CLOSED || placed == 0));
    CHECK(code == QTREE_DONE ? placed == count : code == QTREE_IS_CLOSED || placed < count);
    for (size_t i = 0; i < placed; i++) {
        bytes += packets[i].len;
    }
    CHECK(qtree_port_share(port, &after) == shared && after.packets == before.packets + placed && after.bytes == before.bytes + bytes);
    if (code == QTREE_FULL || code == QTREE_OUT_OF_RANGE) {
        CHECK(qtree_offer(port, &packets[placed]) == code);
    }
}

/* What is taken in is what the device counts as arrived. */
static void take_in(qtree_device *device, struct input *input) {
    qtree_outlet *outlet = &outlets[take(input, 1) % 2];
    qtree_count had = { 0, 0 }, has = { 0, 0 };
    qtree_row before = { 0 }, after = { 0 };
    size_t most = (size_t)take(input, 1) % PLACES, taken = 99;
    qtree_totals(device, &before);
    qtree_outlet_share(outlet, &had);
    qtree_code code = qtree_take_in(device, outlet, a_time(input), most, &taken);
    CHECK(code == QTREE_DONE || code == QTREE_OUT_OF_RANGE || code == QTREE_IS_CLOSED || code == QTREE_MEMORY);
    CHECK(taken <= most && (code == QTREE_DONE || code == QTREE_MEMORY || taken == 0));
    qtree_totals(device, &after);
    qtree_outlet_share(outlet, &has);
    CHECK(has.packets == had.packets + taken && after.arrived.packets == before.arrived.packets + taken);
    CHECK(after.arrived.bytes - before.arrived.bytes == has.bytes - had.bytes);
}

/* What arrived was sent, refused or dropped, or is still queued. */
static void adds_up(qtree_device *device) {
    qtree_row row;
    if (qtree_totals(device, &row) == QTREE_DONE) {
        CHECK(row.arrived.packets == row.sent.packets + row.refused.packets + row.dropped.packets + row.queued.packets);
        CHECK(row.arrived.bytes == row.sent.bytes + row.refused.bytes + row.dropped.bytes + row.queued.bytes);
    }
}

int LLVMFuzzerTestOneInput(const uint8_t *data, size_t size);
int LLVMFuzzerTestOneInput(const uint8_t *data, size_t size) {
    static void (*const each[])(qtree_device *, struct input *) = {
        single, command, arrive_frame, arrive_many, poll_many, poll_bufs, reap, show, look, keep_last, open_or_close, open_or_close_ring, offer, offer_many,
        take_in,
    };
    static bool is_begun;
    if (!is_begun) {
        is_begun = true;
        atexit(tell_calls);
    }
    struct input input = { data, size };
    qtree_device devices[2] = { QTREE_CLOSED, QTREE_CLOSED };
    CHECK(qtree_open(&devices[0], &(qtree_settings){ 100, 16, 1514 }) == QTREE_DONE);
    CHECK(qtree_ring_open(&ports[0], &outlets[0], 3, PLACES) == QTREE_DONE);
    for (int i = 0; i < MOST_CALLS && input.left > 0; i++, calls++) {
        uint64_t which = take(&input, 1);
        qtree_device *device = &devices[which / 64 == 0 ? 1 : 0];
        each[which % (sizeof each / sizeof each[0])](device, &input);
        adds_up(device);
    }
    for (size_t i = 0; i < 2; i++) {
        qtree_close(&devices[i]);
        qtree_port_close(&ports[i]);
        qtree_outlet_close(&outlets[i]);
    }
    return 0;
}
