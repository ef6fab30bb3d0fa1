/* Checks what each function returns, once for good arguments and once for bad ones, and that header and library have the same structs. */
#include "check.h"
#include "qtree.h"

#include <string.h>

static qtree_code tc(qtree_device *device, const char *line) {
    qtree_fault fault;
    return qtree_command(device, (const uint8_t *)line, strlen(line), 0, &fault);
}

static void layout(void) {
    qtree_layout layout;
    qtree_layout_of(&layout);
    CHECK(layout.device == sizeof(qtree_device) && layout.settings == sizeof(qtree_settings));
    CHECK(layout.packet == sizeof(qtree_packet) && layout.loss == sizeof(qtree_loss));
    CHECK(layout.row == sizeof(qtree_row) && layout.event == sizeof(qtree_event));
    qtree_settings settings;
    qtree_loss loss;
    qtree_row row;
    qtree_event event;
    qtree_sample(&settings, &loss, &row, &event);
    CHECK(settings.txqueuelen == 1 && settings.recorder == 2 && settings.mtu == 3);
    const qtree_packet packet = { 1, 2, 3, 4, 5, 6, 7, 8, 9, 10, 11, 12, 13, 14, 15 };
    const size_t filled = offsetof(qtree_packet, ecn) + 1; /* compilers leave the padding after the last field as it is */
    CHECK(memcmp(&loss.packet, &packet, filled) == 0 && loss.cause == 16);
    CHECK(memcmp(&event.packet, &packet, filled) == 0 && event.moment == 16 && event.kind == 17);
    const qtree_row counts = { { 1, 2 }, { 3, 4 }, { 5, 6 }, { 7, 8 }, { 9, 10 }, { 11, 12 } };
    CHECK(memcmp(&row, &counts, sizeof row) == 0);
    CHECK(qtree_version() == (QTREE_VERSION_MAJOR << 16 | QTREE_VERSION_MINOR));
}

static void sizes(void) {
    static const size_t bytes[] = {
        sizeof(qtree_device), sizeof(qtree_settings), sizeof(qtree_packet), sizeof(qtree_loss),   sizeof(qtree_row),    sizeof(qtree_event),
        sizeof(qtree_fault),  sizeof(qtree_count),    sizeof(qtree_port),   sizeof(qtree_outlet), sizeof(qtree_layout),
        sizeof(qtree_sent),   sizeof(qtree_promise), sizeof(qtree_node_view), sizeof(qtree_class_view), sizeof(qtree_delay),
        sizeof(qtree_report), sizeof(qtree_undone), sizeof(qtree_departure), sizeof(qtree_lost), sizeof(qtree_turned),
    };
    for (uint32_t what = QTREE_TYPE_DEVICE; what <= QTREE_TYPE_TURNED; what++) {
        CHECK(qtree_size_of(what) == bytes[what]);
    }
    CHECK(qtree_size_of(QTREE_TYPE_TURNED + 1) == 0 && qtree_size_of(UINT32_MAX) == 0);
    qtree_fault fault;
    qtree_sample_fault(&fault);
    CHECK(fault.word == 1 && fault.number == 2);
}

/* A queue's limit, or what it holds where that is more, and one packet for each qdisc that may hold one. */
static void buffers(void) {
    qtree_device device = QTREE_CLOSED;
    qtree_packet packet = { .len = 100 };
    uint64_t most = 7;
    CHECK(qtree_open(&device, &(qtree_settings){ 3, 0, 1514 }) == QTREE_DONE);
    CHECK(qtree_most_packets(&device, &most) == QTREE_DONE && most == 3);
    CHECK(tc(&device, "tc qdisc add dev a root handle 1: tbf rate 1gbit burst 10kb limit 5000") == QTREE_DONE);
    CHECK(qtree_most_packets(&device, &most) == QTREE_DONE && most == 1 + 5000);
    CHECK(tc(&device, "tc qdisc add dev a parent 1:1 handle 2: fq_codel limit 4") == QTREE_DONE);
    CHECK(qtree_most_packets(&device, &most) == QTREE_DONE && most == 1 + 4 + 1);
    for (int i = 0; i < 4; i++) {
        CHECK(qtree_arrive(&device, &packet, 0) == QTREE_DONE);
    }
    CHECK(tc(&device, "tc qdisc change dev a parent 1:1 fq_codel limit 1") == QTREE_DONE);
    CHECK(qtree_most_packets(&device, &most) == QTREE_DONE);
    qtree_row row;
    CHECK(qtree_totals(&device, &row) == QTREE_DONE && most == 1 + (row.queued.packets > 1 ? row.queued.packets : 1) + 1);
    qtree_close(&device);
}

static void opening(void) {
    qtree_device device = QTREE_CLOSED;
    qtree_packet packet = { .len = 100 };
    uint64_t at = 7;
    size_t needed = 7;
    CHECK(qtree_arrive(&device, &packet, 0) == QTREE_IS_CLOSED);
    CHECK(tc(&device, "tc qdisc add dev a root handle 1: drr") == QTREE_IS_CLOSED);
    CHECK(qtree_show(&device, QTREE_SHOW_QDISCS, NULL, 0, &needed) == QTREE_IS_CLOSED && needed == 0);
    CHECK(qtree_ready_at(&device, &at) == QTREE_IS_CLOSED && qtree_oldest(&device, QTREE_ROOT, 0, 0, &at) == QTREE_IS_CLOSED && at == 7);
    CHECK(qtree_most_packets(&device, &at) == QTREE_IS_CLOSED && at == 7);
    CHECK(qtree_open(&device, &(qtree_settings){ 1000, 0, 0 }) == QTREE_OUT_OF_RANGE);
    CHECK(qtree_open(&device, &(qtree_settings){ 1000, 1000001, 1514 }) == QTREE_OUT_OF_RANGE);
    CHECK(qtree_open(&device, &(qtree_settings){ 1000, 8, 1514 }) == QTREE_DONE && device.at != NULL && device.state == 1);
    CHECK(qtree_open(&device, &(qtree_settings){ 1000, 8, 1514 }) == QTREE_IS_OPEN);
    CHECK(qtree_arrive(&device, &packet, QTREE_MOMENT_MAX + 1) == QTREE_OUT_OF_RANGE);
    packet.prio = 16;
    CHECK(qtree_arrive(&device, &packet, 0) == QTREE_OUT_OF_RANGE);
    qtree_close(&device);
    qtree_close(&device);
    CHECK(qtree_poll(&device, 0, &packet) == QTREE_IS_CLOSED);
}

static void commands(qtree_device *device) {
    CHECK(tc(device, "tc qdisc add dev a root handle 1: tbf rate 8mbit burst 2000 latency 50ms") == QTREE_DONE);
    CHECK(tc(device, "tc qdisc add dev a parent 1:1 handle 10: fq_codel limit 2") == QTREE_DONE);
    CHECK(tc(device, "tc qdisc add dev a root handle 1: drr") == QTREE_REFUSED_EXISTS);
    CHECK(tc(device, "tc qdisc show") == QTREE_NO_COMMAND && tc(device, "") == QTREE_NO_COMMAND && tc(device, "reap") == QTREE_NO_COMMAND);
    const char line[] = "tc qdisc ad";
    qtree_fault fault = { 0, 0 };
    CHECK(qtree_command(device, (const uint8_t *)line, strlen(line), 0, &fault) == QTREE_FAULTY);
    CHECK(fault.word == 3 && fault.number == QTREE_FAULT_UNKNOWN_WORD);
    CHECK(qtree_command(device, (const uint8_t *)line, strlen(line), QTREE_MOMENT_MAX + 1, &fault) == QTREE_OUT_OF_RANGE);
}

static void shows(qtree_device *device) {
    static const char wanted[] = "qdisc tbf 1: root rate 8000000bit burst 2000b limit 52000b\n";
    uint8_t text[400];
    size_t needed;
    CHECK(qtree_show(device, QTREE_SHOW_QDISCS, text, 10, &needed) == QTREE_ROOM && needed > strlen(wanted));
    CHECK(qtree_show(device, QTREE_SHOW_QDISCS, text, sizeof text, &needed) == QTREE_DONE);
    CHECK(memcmp(text, wanted, strlen(wanted)) == 0);
    CHECK(qtree_show(device, QTREE_SHOW_FILTERS, text, sizeof text, &needed) == QTREE_DONE && needed == 0);
    CHECK(qtree_show(device, 4, text, sizeof text, &needed) == QTREE_OUT_OF_RANGE && needed == 0);
}

/* A packet that arrives by its first bytes is the one that is read of them. */
static void same_arrivals(const qtree_packet *packet, const uint8_t *head, size_t count) {
    qtree_device device = QTREE_CLOSED;
    qtree_packet given;
    CHECK(qtree_arrive_frame(&device, head, count, 1500, 77, 0x1234, 0) == QTREE_IS_CLOSED);
    CHECK(qtree_open(&device, &(qtree_settings){ 2, 0, 1514 }) == QTREE_DONE);
    CHECK(qtree_arrive_frame(&device, head, count, 0, 77, 0x1234, 0) == QTREE_OUT_OF_RANGE);
    CHECK(qtree_arrive_frame(&device, head, count, 1500, 77, 0x1234, QTREE_MOMENT_MAX + 1) == QTREE_OUT_OF_RANGE);
    CHECK(qtree_arrive_frame(&device, head, count, 1515, 77, 0x1234, 0) == QTREE_LOST_TOO_LONG);
    CHECK(qtree_arrive_frame(&device, head, count, 1500, 77, 0x1234, 0) == QTREE_DONE);
    CHECK(qtree_arrive_frame_seeded(&device, head, count, 1500, 77, 0, 0) == QTREE_DONE);
    CHECK(qtree_arrive_frame(&device, head, count, 1500, 77, 0x1234, 0) == QTREE_LOST_OVER_LIMIT);
    CHECK(qtree_poll(&device, 0, &given) == QTREE_DONE && given.hash == 0x1234);
    given.hash = packet->hash;
    CHECK(memcmp(&given, packet, offsetof(qtree_packet, ecn) + 1) == 0);
    CHECK(qtree_poll(&device, 0, &given) == QTREE_DONE && memcmp(&given, packet, offsetof(qtree_packet, ecn) + 1) == 0);
    CHECK(qtree_arrive_frame(&device, NULL, 0, 1, 5, 0, 0) == QTREE_DONE);
    CHECK(qtree_poll(&device, 0, &given) == QTREE_DONE && given.buf == 5 && given.len == 1 && given.family == 0);
    qtree_close(&device);
}

static void packets(qtree_device *device) {
    uint8_t head[28] = { 0x45, 3, 0, 28, 0, 0, 0, 0, 64, 17, 0, 0, 10, 0, 0, 1, 10, 0, 0, 2, 0x10, 0, 0x13, 0x89, 0, 8, 0, 0 };
    qtree_packet packet = { .len = 1500, .buf = 77 };
    qtree_read_head(head, sizeof head, 0, &packet);
    CHECK(packet.family == 4 && packet.proto == 17 && packet.src_low == 0x0a000001 && packet.dport == 5001 && packet.ecn == 3);
    qtree_packet hashed = { .len = 1500, .buf = 77 }, bare = { .len = 1500, .buf = 77 };
    qtree_read_fields_hashed(head, sizeof head, 0x1234, &hashed);
    qtree_read_fields(head, sizeof head, &bare);
    CHECK(hashed.hash == 0x1234 && hashed.dport == 5001 && bare.hash == 0 && bare.src_low == 0x0a000001 && bare.buf == 77);
    uint64_t at = 7;
    CHECK(qtree_ready_at(device, &at) == QTREE_NOTHING && at == 7);
    CHECK(qtree_oldest(device, QTREE_TOP, 0, 0, &at) == QTREE_NOTHING && qtree_oldest(device, QTREE_CLASS, 1, 2, &at) == QTREE_NOTHING);
    CHECK(qtree_oldest(device, 3, 0, 0, &at) == QTREE_OUT_OF_RANGE && at == 7);
    same_arrivals(&packet, head, sizeof head);
    const qtree_packet all[] = { packet, packet, packet };
    uint8_t codes[3] = { 9, 9, 9 };
    size_t count;
    CHECK(qtree_arrive_many(device, all, 3, codes, 2, &count, 0) == QTREE_ROOM && count == 0 && codes[0] == 9);
    CHECK(qtree_arrive_many(device, all, 3, codes, 3, &count, 0) == QTREE_DONE && count == 3);
    CHECK(codes[0] == 0 && codes[1] == 0 && codes[2] == 0);
    CHECK(qtree_ready_at(device, &at) == QTREE_DONE && at == 0);
    CHECK(qtree_poll(device, 0, &packet) == QTREE_DONE && packet.buf == 77);
    CHECK(qtree_poll(device, 0, &packet) == QTREE_LATER && qtree_ready_at(device, &at) == QTREE_DONE && at == 1000000);
    uint64_t since = 7;
    CHECK(qtree_oldest(device, QTREE_ROOT, 0, 0, &since) == QTREE_DONE && since == 0);
    CHECK(qtree_poll(device, at - 1, &packet) == QTREE_LATER && qtree_poll(device, at, &packet) == QTREE_DONE);
    CHECK(qtree_oldest(device, QTREE_ROOT, 0, 0, &since) == QTREE_NOTHING);
    CHECK(qtree_poll(device, at, &packet) == QTREE_IDLE);
    qtree_loss loss;
    CHECK(qtree_reap(device, &loss) == QTREE_DONE && loss.cause == QTREE_LOST_FAT_FLOW && qtree_reap(device, &loss) == QTREE_NOTHING);
    qtree_row row;
    CHECK(qtree_totals(device, &row) == QTREE_DONE && row.arrived.packets == 3 && row.sent.packets == 2 && row.dropped.packets == 1);
    CHECK(qtree_stats(device, QTREE_CLASS, 1, 2, &row) == QTREE_NOTHING && qtree_stats(device, 3, 0, 0, &row) == QTREE_OUT_OF_RANGE);
}

/* The one's complement sum of the words of a header (RFC 1071), which is 0xffff if its checksum is right. */
static uint32_t words_sum(const uint8_t *head, size_t count) {
    uint32_t sum = 0;
    for (size_t i = 0; i + 1 < count; i += 2) {
        sum += (uint32_t)head[i] << 8 | head[i + 1];
    }
    sum = (sum & 0xffff) + (sum >> 16);
    return (sum & 0xffff) + (sum >> 16);
}

/* 100,000 random headers: a mark changes the codepoint alone, and a right checksum stays right. */
static void marks(void) {
    uint64_t random = 1;
    size_t marked = 0;
    for (int round = 0; round < 100000; round++) {
        uint8_t head[60], before[60];
        for (size_t i = 0; i < sizeof head; i++) {
            random = random * 6364136223846793005u + 1442695040888963407u;
            head[i] = (uint8_t)(random >> 56);
        }
        head[0] = round % 2 == 0 ? (uint8_t)(0x45 + head[0] % 11) : (uint8_t)(0x60 | head[0] % 16);
        size_t len = round % 2 == 0 ? 4u * (head[0] & 15u) : 40;
        if (round % 2 == 0) {
            head[10] = head[11] = 0;
            uint32_t sum = 0xffff ^ words_sum(head, len);
            head[10] = (uint8_t)(sum >> 8);
            head[11] = (uint8_t)sum;
        }
        memcpy(before, head, sizeof head);
        qtree_packet was = { 0 }, is = { 0 };
        qtree_read_head(head, sizeof head, 0, &was);
        bool is_marked = qtree_mark_head(head, sizeof head);
        qtree_read_head(head, sizeof head, 0, &is);
        CHECK(is_marked == (was.ecn != 0) && is.ecn == (is_marked ? 3 : 0));
        CHECK(is.prio == was.prio && is.hash == was.hash && is.proto == was.proto);
        CHECK(round % 2 == 1 || words_sum(head, len) == 0xffff);
        head[1] = before[1];
        CHECK(memcmp(head, before, 10) == 0 && memcmp(head + 12, before + 12, sizeof head - 12) == 0);
        CHECK(round % 2 == 0 || memcmp(head, before, sizeof head) == 0);
        marked += is_marked;
    }
    CHECK(marked > 70000 && marked < 80000);
}

/* The IP header of a frame, behind no tag, one or two, and of frames without one. */
static void frames(void) {
    uint8_t frame[64] = { 0 };
    CHECK(qtree_ip_at(NULL, 0) == 0 && qtree_ip_at(frame, sizeof frame) == 0);
    memcpy(frame + 12, (uint8_t[]){ 8, 0 }, 2);
    CHECK(qtree_ip_at(frame, 13) == 0 && qtree_ip_at(frame, 14) == 14);
    memcpy(frame + 12, (uint8_t[]){ 0x81, 0, 0, 5, 0x86, 0xdd }, 6);
    CHECK(qtree_ip_at(frame, 17) == 0 && qtree_ip_at(frame, 18) == 18);
    memcpy(frame + 12, (uint8_t[]){ 0x88, 0xa8, 0, 5, 0x81, 0, 0, 7, 8, 0 }, 10);
    CHECK(qtree_ip_at(frame, 21) == 0 && qtree_ip_at(frame, sizeof frame) == 22);
    memcpy(frame + 20, (uint8_t[]){ 0x81, 0, 0, 7, 8, 0 }, 6);
    CHECK(qtree_ip_at(frame, sizeof frame) == 0);
    memcpy(frame + 12, (uint8_t[]){ 8, 6 }, 2);
    CHECK(qtree_ip_at(frame, sizeof frame) == 0);
}

static void ring_opening(void) {
    qtree_port port = QTREE_CLOSED, other = QTREE_CLOSED;
    qtree_outlet outlet = QTREE_CLOSED, another = QTREE_CLOSED;
    qtree_packet packet = { .len = 100 };
    qtree_count share = { 7, 7 };
    CHECK(qtree_offer(&port, &packet) == QTREE_IS_CLOSED && qtree_port_share(&port, &share) == QTREE_IS_CLOSED);
    CHECK(qtree_outlet_share(&outlet, &share) == QTREE_IS_CLOSED && share.packets == 7 && share.bytes == 7);
    CHECK(qtree_ring_open(&port, &outlet, 5, 0) == QTREE_OUT_OF_RANGE);
    CHECK(qtree_ring_open(&port, &outlet, 5, 65537) == QTREE_OUT_OF_RANGE && port.state == 0 && outlet.state == 0);
    CHECK(qtree_ring_open(&port, &outlet, 5, 65536) == QTREE_DONE);
    CHECK(port.at != NULL && port.state == 1 && outlet.at != NULL && outlet.state == 1);
    CHECK(qtree_ring_open(&port, &another, 6, 1) == QTREE_IS_OPEN && another.state == 0);
    CHECK(qtree_ring_open(&other, &outlet, 6, 0) == QTREE_IS_OPEN && other.state == 0);
    qtree_port_close(&port);
    qtree_port_close(&port);
    CHECK(qtree_offer(&port, &packet) == QTREE_IS_CLOSED);
    qtree_outlet_close(&outlet);
    qtree_outlet_close(&outlet);
    CHECK(qtree_ring_open(&port, &outlet, 5, 1) == QTREE_DONE);
    qtree_outlet_close(&outlet);
    CHECK(qtree_offer(&port, &packet) == QTREE_DONE && qtree_offer(&port, &packet) == QTREE_FULL);
    qtree_port_close(&port);
}

/* A ring of two: what is placed has the port's index and a number, and waits until the device takes it in. */
static void rings(void) {
    qtree_device device = QTREE_CLOSED;
    qtree_port port = QTREE_CLOSED;
    qtree_outlet outlet = QTREE_CLOSED;
    qtree_packet packet = { .len = 100, .buf = 8, .port = 9, .number = 9 };
    qtree_count share;
    size_t taken = 7;
    CHECK(qtree_take_in(&device, &outlet, 0, 9, &taken) == QTREE_IS_CLOSED && taken == 0);
    CHECK(qtree_open(&device, &(qtree_settings){ 1000, 0, 1514 }) == QTREE_DONE && (taken = 7));
    CHECK(qtree_take_in(&device, &outlet, 0, 9, &taken) == QTREE_IS_CLOSED && taken == 0);
    CHECK(tc(&device, "tc qdisc add dev a root handle 1: pfifo limit 2") == QTREE_DONE);
    CHECK(qtree_ring_open(&port, &outlet, 5, 2) == QTREE_DONE);
    CHECK(qtree_offer(&port, &packet) == QTREE_DONE && packet.port == 9 && packet.number == 9);
    packet.prio = 16;
    CHECK(qtree_offer(&port, &packet) == QTREE_OUT_OF_RANGE);
    packet.prio = 0;
    CHECK(qtree_offer(&port, &packet) == QTREE_DONE && qtree_offer(&port, &packet) == QTREE_FULL);
    CHECK(qtree_take_in(&device, &outlet, QTREE_MOMENT_MAX + 1, 9, &taken) == QTREE_OUT_OF_RANGE && taken == 0);
    CHECK(qtree_take_in(&device, &outlet, 0, 0, &taken) == QTREE_DONE && taken == 0);
    CHECK(qtree_take_in(&device, &outlet, 0, 1, &taken) == QTREE_DONE && taken == 1);
    CHECK(qtree_offer(&port, &packet) == QTREE_DONE && qtree_offer(&port, &packet) == QTREE_FULL);
    qtree_port_close(&port);
    CHECK(qtree_take_in(&device, &outlet, 0, 9, &taken) == QTREE_DONE && taken == 2);
    CHECK(qtree_outlet_share(&outlet, &share) == QTREE_DONE && share.packets == 3 && share.bytes == 300);
    qtree_loss loss;
    CHECK(qtree_reap(&device, &loss) == QTREE_DONE && loss.cause == QTREE_LOST_OVER_LIMIT && loss.packet.number == 3);
    CHECK(qtree_poll(&device, 0, &packet) == QTREE_DONE && packet.port == 5 && packet.number == 1 && packet.buf == 8);
    CHECK(qtree_poll(&device, 0, &packet) == QTREE_DONE && packet.port == 5 && packet.number == 2);
    qtree_outlet_close(&outlet);
    qtree_close(&device);
}

/* The fields of a sent packet are the same by all kinds of polls, and a poll that gives no packet writes nothing. */
static void brief_polls(qtree_device *device, qtree_port *port, qtree_outlet *outlet) {
    qtree_sent one = { .buf = 9 }, all[4] = { { .buf = 9 }, { .buf = 9 }, { .buf = 9 }, { .buf = 9 } };
    size_t count = 7;
    CHECK(qtree_poll_buf(device, 0, &one) == QTREE_IDLE && one.buf == 9);
    for (uint32_t i = 0; i < 4; i++) {
        CHECK(qtree_offer(port, &(qtree_packet){ .len = (uint16_t)(100 + i), .buf = i, .ecn = (uint8_t)i }) == QTREE_DONE);
    }
    CHECK(qtree_take_in(device, outlet, 0, 4, &count) == QTREE_DONE && count == 4);
    CHECK(qtree_poll_buf(device, QTREE_MOMENT_MAX + 1, &one) == QTREE_OUT_OF_RANGE && one.buf == 9);
    CHECK(qtree_poll_bufs(device, QTREE_MOMENT_MAX + 1, all, 4, &count) == QTREE_OUT_OF_RANGE && count == 0);
    CHECK(qtree_poll_buf(device, 0, &one) == QTREE_DONE && one.buf == 0 && one.len == 100 && one.port == 5 && one.ecn == 0);
    uint64_t first = one.number + 1;
    CHECK(qtree_poll_bufs(device, 0, all, 2, &count) == QTREE_DONE && count == 2 && all[2].buf == 9);
    CHECK(qtree_poll_bufs(device, 0, all + 2, 2, &count) == QTREE_IDLE && count == 1 && all[3].buf == 9);
    for (uint32_t i = 0; i < 3; i++) {
        CHECK(all[i].buf == i + 1 && all[i].len == 101 + i && all[i].ecn == i + 1 && all[i].port == 5 && all[i].number == first + i);
    }
}

/* Many packets by one call each: all of them arrive, go, and are taken in from a ring. */
static void bursts(void) {
    enum { MANY = 300 };
    static qtree_packet sent[MANY], given[MANY];
    static uint8_t codes[MANY];
    qtree_device device = QTREE_CLOSED;
    qtree_port port = QTREE_CLOSED;
    qtree_outlet outlet = QTREE_CLOSED;
    size_t count = 7;
    CHECK(qtree_open(&device, &(qtree_settings){ 1000, 0, 1514 }) == QTREE_DONE);
    CHECK(qtree_ring_open(&port, &outlet, 5, 512) == QTREE_DONE);
    for (uint32_t i = 0; i < MANY; i++) {
        sent[i] = (qtree_packet){ .len = 100, .buf = i };
        codes[i] = 9;
        CHECK(qtree_offer(&port, &sent[i]) == QTREE_DONE);
    }
    CHECK(qtree_arrive_many(&device, sent, MANY, codes, MANY, &count, 0) == QTREE_DONE && count == MANY);
    CHECK(qtree_poll_many(&device, 0, given, MANY, &count) == QTREE_DONE && count == MANY);
    for (uint32_t i = 0; i < MANY; i++) {
        CHECK(codes[i] == 0 && given[i].buf == i && given[i].len == 100);
    }
    CHECK(qtree_take_in(&device, &outlet, 0, 512, &count) == QTREE_DONE && count == MANY);
    CHECK(qtree_poll_many(&device, 0, given, MANY, &count) == QTREE_DONE && count == MANY);
    for (uint32_t i = 0; i < MANY; i++) {
        CHECK(given[i].buf == i && given[i].port == 5 && given[i].number == i + 1);
    }
    brief_polls(&device, &port, &outlet);
    CHECK(qtree_poll_many(&device, 0, given, MANY, &count) == QTREE_IDLE && count == 0);
    qtree_port_close(&port);
    qtree_outlet_close(&outlet);
    qtree_close(&device);
}

/* Two classes of a drr, of quanta of 1000 and 500 bytes, by one call: a class whose deficit does not cover its packet is granted its quantum and goes
 * to the end (tc-drr(8)). A class that is an fq_codel gives in the same order. */
static void bursts_of_a_drr(void) {
    static const uint32_t wanted[] = { 1, 1, 2, 1, 2, 2 };
    for (int other = 0; other < 2; other++) {
        qtree_device device = QTREE_CLOSED;
        qtree_packet packets[6], given[8];
        uint8_t codes[6];
        size_t count = 7;
        CHECK(qtree_open(&device, &(qtree_settings){ 1000, 0, 1514 }) == QTREE_DONE);
        CHECK(tc(&device, "tc qdisc add dev a root handle 1: drr") == QTREE_DONE);
        CHECK(tc(&device, "tc class add dev a parent 1: classid 1:1 drr quantum 1000") == QTREE_DONE);
        CHECK(tc(&device, "tc class add dev a parent 1: classid 1:2 drr quantum 500") == QTREE_DONE);
        CHECK(tc(&device, "tc filter add dev a parent 1: prio 1 flower dst_port 1 classid 1:1") == QTREE_DONE);
        CHECK(tc(&device, "tc filter add dev a parent 1: prio 1 flower dst_port 2 classid 1:2") == QTREE_DONE);
        CHECK(!other || tc(&device, "tc qdisc add dev a parent 1:2 handle 2: fq_codel") == QTREE_DONE);
        for (uint32_t i = 0; i < 6; i++) {
            packets[i] = (qtree_packet){ .len = 1000, .buf = 1 + i % 2, .dport = (uint16_t)(1 + i % 2) };
        }
        CHECK(qtree_arrive_many(&device, packets, 6, codes, 6, &count, 0) == QTREE_DONE && count == 6);
        CHECK(qtree_poll_many(&device, 0, given, 8, &count) == QTREE_IDLE && count == 6);
        for (uint32_t i = 0; i < 6; i++) {
            CHECK(codes[i] == 0 && given[i].buf == wanted[i]);
        }
        qtree_close(&device);
    }
}

static size_t same(const uint8_t *text, size_t len, const char *wanted) {
    return len == strlen(wanted) && memcmp(text, wanted, len) == 0;
}

/* What a recorder of three has of five events, as lines and as a script. */
static void recorders(void) {
    static const char script[] = "tc qdisc add dev eth0 root handle 1: tbf rate 8000000bit burst 2000b latency 12.345us\n"
                                 "at 7\npkt 1500 hash 9 prio 3 ip_proto 11 src_ip 10.0.0.1 dst_ip 10.0.0.2 src_port 4096 dst_port 53 ecn 2\n"
                                 "poll 1\n";
    qtree_device device = QTREE_CLOSED;
    qtree_packet packet = { .len = 1500, .hash = 9, .prio = 3, .proto = 17, .family = 4, .ecn = 2, .port = 8, .number = 9, .buf = 77 };
    packet.src_low = 0x0a000001;
    packet.dst_low = 0x0a000002;
    packet.sport = 4096;
    packet.dport = 53;
    uint8_t text[400] = { 9 };
    size_t needed = 7;
    CHECK(qtree_recorded_script(&device, text, sizeof text, &needed) == QTREE_IS_CLOSED && needed == 0 && text[0] == 9);
    CHECK(qtree_recorded_line(&device, 0, text, sizeof text, &needed) == QTREE_IS_CLOSED && needed == 0);
    CHECK(qtree_open(&device, &(qtree_settings){ 1000, 3, 1514 }) == QTREE_DONE && (needed = 7));
    CHECK(qtree_recorded_script(&device, NULL, 0, &needed) == QTREE_DONE && needed == 0 && (needed = 7));
    CHECK(qtree_recorded_line(&device, 0, text, sizeof text, &needed) == QTREE_NOTHING && needed == 0 && text[0] == 9);
    CHECK(tc(&device, "tc qdisc add dev a root handle 1: tbf rate 8mbit burst 2000 latency 12.345us") == QTREE_DONE);
    CHECK(tc(&device, "tc qdisc add dev a root handle 1: drr") == QTREE_REFUSED_EXISTS);
    CHECK(qtree_arrive(&device, &packet, 7) == QTREE_DONE && qtree_poll(&device, 7, &packet) == QTREE_DONE);
    CHECK(qtree_poll(&device, 8, &packet) == QTREE_IDLE && qtree_arrive(&device, &packet, 9) == QTREE_DONE);
    CHECK(qtree_recorded_line(&device, 0, text, 10, &needed) == QTREE_ROOM && needed == strcspn(script, "\n") && text[0] == 9);
    CHECK(qtree_recorded_line(&device, 2, text, sizeof text, &needed) == QTREE_DONE && same(text, needed, "poll 1"));
    CHECK(qtree_recorded_line(&device, 3, text, sizeof text, &needed) == QTREE_NOTHING && needed == 0);
    CHECK(qtree_recorded_script(&device, text, strlen(script) - 1, &needed) == QTREE_ROOM && needed == strlen(script));
    CHECK(qtree_recorded_script(&device, text, strlen(script), &needed) == QTREE_DONE && same(text, needed, script));
    qtree_close(&device);
}

/* Two customers on a link, and a drr at the root. */
static void services(void) {
    qtree_device device = QTREE_CLOSED;
    qtree_promise promise = { 7, 7, 7, 7 };
    uint64_t late = 7;
    CHECK(qtree_service(&device, QTREE_CLASS, 2, 1, &promise) == QTREE_IS_CLOSED && promise.link == 7);
    CHECK(qtree_lateness(&device, QTREE_CLASS, 2, 1, &late) == QTREE_IS_CLOSED && late == 7);
    CHECK(qtree_open(&device, &(qtree_settings){ 1000, 0, 1514 }) == QTREE_DONE);
    CHECK(tc(&device, "tc qdisc add dev a root handle 1: tbf rate 20mbit burst 1515 latency 50ms") == QTREE_DONE);
    CHECK(tc(&device, "tc qdisc add dev a parent 1:1 handle 2: drr") == QTREE_DONE);
    CHECK(tc(&device, "tc class add dev a parent 2: classid 2:1 drr quantum 3000") == QTREE_DONE);
    CHECK(tc(&device, "tc class add dev a parent 2: classid 2:2 drr quantum 1500") == QTREE_DONE);
    CHECK(qtree_service(&device, QTREE_CLASS, 2, 3, &promise) == QTREE_NOTHING && promise.link == 7 && promise.slack == 7);
    CHECK(qtree_service(&device, QTREE_CLASS, 1, 1, &promise) == QTREE_NOTHING && qtree_service(&device, QTREE_ROOT, 0, 0, &promise) == QTREE_NOTHING);
    CHECK(qtree_service(&device, QTREE_CLASS, 2, 0, &promise) == QTREE_OUT_OF_RANGE && qtree_service(&device, 3, 0, 0, &promise) == QTREE_OUT_OF_RANGE);
    CHECK(qtree_service(&device, QTREE_CLASS, 2, 1, &promise) == QTREE_DONE && promise.link == 20000000 && promise.rate == 13333333);
    CHECK(promise.part == 666666666 && promise.slack == 5532);
    CHECK(qtree_lateness(&device, QTREE_CLASS, 2, 3, &late) == QTREE_NOTHING && qtree_lateness(&device, QTREE_ROOT, 0, 0, &late) == QTREE_NOTHING);
    CHECK(qtree_lateness(&device, QTREE_CLASS, 2, 0, &late) == QTREE_OUT_OF_RANGE && qtree_lateness(&device, 3, 0, 0, &late) == QTREE_OUT_OF_RANGE);
    CHECK(late == 7 && qtree_lateness(&device, QTREE_CLASS, 2, 1, &late) == QTREE_DONE && late == (8000000000 - 20000000) / 20000000);
    CHECK(tc(&device, "tc qdisc change dev a root tbf rate 20mbit burst 1640 latency 50ms") == QTREE_DONE);
    CHECK(qtree_lateness(&device, QTREE_CLASS, 2, 2, &late) == QTREE_DONE && late == (126 * 8000000000 - 20000000) / 20000000);
    CHECK(tc(&device, "tc qdisc change dev a root tbf rate 20mbit burst 1514 latency 50ms") == QTREE_DONE);
    CHECK(qtree_lateness(&device, QTREE_CLASS, 2, 2, &late) == QTREE_NOTHING && qtree_service(&device, QTREE_CLASS, 2, 2, &promise) == QTREE_NOTHING);
    CHECK(tc(&device, "tc qdisc del dev a root") == QTREE_DONE && tc(&device, "tc qdisc add dev a root handle 2: drr") == QTREE_DONE);
    CHECK(tc(&device, "tc class add dev a parent 2: classid 2:1 drr quantum 3000") == QTREE_DONE);
    CHECK(tc(&device, "tc class add dev a parent 2: classid 2:2 drr quantum 1500") == QTREE_DONE);
    CHECK(qtree_service(&device, QTREE_CLASS, 2, 2, &promise) == QTREE_DONE && promise.link == 0 && promise.rate == 0);
    CHECK(promise.part == 333333333 && promise.slack == 3513);
    CHECK(qtree_lateness(&device, QTREE_CLASS, 2, 2, &late) == QTREE_DONE && late == UINT64_MAX);
    qtree_close(&device);
}

static bool is_delay(qtree_delay delay, uint64_t bytes, uint64_t ns, uint64_t late) {
    return delay.bytes == bytes && delay.ns == ns && delay.late == late;
}

/* Voice before data on a link, and without one. */
static void delays(void) {
    qtree_device device = QTREE_CLOSED;
    qtree_delay delay = { 7, 7, 7 };
    CHECK(qtree_worst(&device, QTREE_ROOT, 0, 0, &delay) == QTREE_IS_CLOSED && is_delay(delay, 7, 7, 7));
    CHECK(qtree_open(&device, &(qtree_settings){ 1000, 0, 1514 }) == QTREE_DONE);
    CHECK(qtree_worst(&device, QTREE_ROOT, 0, 0, &delay) == QTREE_DONE && is_delay(delay, 1514000, UINT64_MAX, UINT64_MAX));
    CHECK(tc(&device, "tc qdisc add dev a root handle 1: tbf rate 3mbit burst 1640 limit 10000") == QTREE_DONE);
    CHECK(qtree_worst(&device, QTREE_CLASS, 1, 1, &delay) == QTREE_DONE && is_delay(delay, 10000, 26666667, 335999));
    CHECK(tc(&device, "tc qdisc add dev a parent 1:1 handle 2: prio") == QTREE_DONE);
    CHECK(tc(&device, "tc qdisc add dev a parent 2:1 handle 3: bfifo limit 3000") == QTREE_DONE);
    CHECK(qtree_worst(&device, QTREE_CLASS, 2, 1, &delay) == QTREE_DONE && is_delay(delay, 3000, 8000000, 335999));
    delay = (qtree_delay){ 7, 7, 7 };
    CHECK(qtree_worst(&device, QTREE_CLASS, 2, 2, &delay) == QTREE_NOTHING && qtree_worst(&device, QTREE_CLASS, 1, 1, &delay) == QTREE_NOTHING);
    CHECK(qtree_worst(&device, QTREE_TOP, 0, 0, &delay) == QTREE_NOTHING && qtree_worst(&device, QTREE_ROOT, 0, 0, &delay) == QTREE_NOTHING);
    CHECK(qtree_worst(&device, QTREE_CLASS, 2, 0, &delay) == QTREE_OUT_OF_RANGE && qtree_worst(&device, 3, 0, 0, &delay) == QTREE_OUT_OF_RANGE);
    CHECK(tc(&device, "tc qdisc add dev a parent 2:2 handle 4: tbf rate 1mbit burst 1514 limit 1514") == QTREE_DONE);
    CHECK(qtree_worst(&device, QTREE_CLASS, 2, 1, &delay) == QTREE_NOTHING && tc(&device, "tc qdisc del dev a parent 2:2") == QTREE_DONE);
    CHECK(tc(&device, "tc qdisc change dev a root tbf rate 3mbit burst 1514 limit 10000") == QTREE_DONE);
    CHECK(qtree_worst(&device, QTREE_CLASS, 2, 1, &delay) == QTREE_NOTHING && is_delay(delay, 7, 7, 7));
    qtree_close(&device);
}

static bool is_departure(qtree_departure departure, uint64_t bytes, uint64_t at, uint64_t late) {
    return departure.bytes == bytes && departure.at == at && departure.late == late;
}

/* Whether this is answered of a packet of this length in the class major:minor. */
static bool leaves(const qtree_device *device, uint16_t major, uint16_t minor, uint16_t len, uint64_t bytes, uint64_t at, uint64_t late) {
    qtree_departure departure = { 7, 7, 7 };
    return qtree_latest(device, QTREE_CLASS, major, minor, len, &departure) == QTREE_DONE && is_departure(departure, bytes, at, late);
}

/* A packet leaves when was answered before it came. The first band of a prio has 2000 bytes queued, and the burst of the tbf is used up. */
static void departures_below_a_tbf(qtree_device *device) {
    const uint64_t late = 1485999;
    qtree_packet packet = { .len = 1500, .prio = 6 };
    CHECK(tc(device, "tc qdisc add dev a root handle 1: tbf rate 8mbit burst 3000 limit 20000") == QTREE_DONE);
    CHECK(leaves(device, 1, 1, 1514, 1514, 0, late) && leaves(device, 1, 1, 3000, 3000, 1485999, late));
    CHECK(tc(device, "tc qdisc add dev a parent 1:1 handle 2: prio") == QTREE_DONE);
    CHECK(tc(device, "tc qdisc add dev a parent 2:2 handle 3: bfifo limit 3000") == QTREE_DONE);
    for (int i = 0; i < 2; i++) {
        CHECK(qtree_arrive(device, &packet, 50) == QTREE_DONE && qtree_poll(device, 50, &packet) == QTREE_DONE);
    }
    CHECK(leaves(device, 2, 1, 0, 0, 50, late));
    for (packet.len = 1000; packet.number < 2; packet.number++) {
        CHECK(qtree_arrive(device, &packet, 50) == QTREE_DONE);
    }
    CHECK(leaves(device, 2, 1, 0, 2000, 2000050, late) && leaves(device, 2, 1, 1000, 3000, 3000050, late));
    CHECK(leaves(device, 2, 1, 65535, 67535, 67535050, late));
    CHECK(qtree_arrive(device, &packet, 250050) == QTREE_DONE && leaves(device, 2, 1, 0, 3000, 3000050, late));
    for (uint64_t now = 1000050; now <= 3000050; now += 1000000) {
        CHECK(qtree_poll(device, now - 1, &packet) == QTREE_LATER && qtree_poll(device, now, &packet) == QTREE_DONE);
    }
    CHECK(packet.number == 2 && leaves(device, 2, 1, 0, 0, 3000050, late));
}

/* A packet that comes next, and one that was queued last. */
static void departures(void) {
    qtree_device device = QTREE_CLOSED;
    qtree_departure departure = { 7, 7, 7 };
    CHECK(qtree_latest(&device, QTREE_ROOT, 0, 0, 1, &departure) == QTREE_IS_CLOSED && is_departure(departure, 7, 7, 7));
    CHECK(qtree_open(&device, &(qtree_settings){ 1000, 0, 1514 }) == QTREE_DONE);
    CHECK(qtree_arrive(&device, &(qtree_packet){ .len = 300 }, 0) == QTREE_DONE);
    CHECK(qtree_latest(&device, QTREE_ROOT, 0, 0, 700, &departure) == QTREE_DONE && is_departure(departure, 1000, UINT64_MAX, UINT64_MAX));
    CHECK(qtree_latest(&device, QTREE_ROOT, 0, 0, 0, &departure) == QTREE_DONE && is_departure(departure, 300, UINT64_MAX, UINT64_MAX));
    CHECK(qtree_poll(&device, 0, &(qtree_packet){ 0 }) == QTREE_DONE);
    departures_below_a_tbf(&device);
    departure = (qtree_departure){ 7, 7, 7 };
    CHECK(qtree_latest(&device, QTREE_CLASS, 2, 2, 9, &departure) == QTREE_NOTHING);
    CHECK(qtree_latest(&device, QTREE_CLASS, 1, 1, 9, &departure) == QTREE_NOTHING);
    CHECK(qtree_latest(&device, QTREE_TOP, 0, 0, 9, &departure) == QTREE_NOTHING);
    CHECK(qtree_latest(&device, QTREE_ROOT, 0, 0, 9, &departure) == QTREE_NOTHING);
    CHECK(qtree_latest(&device, QTREE_CLASS, 2, 0, 9, &departure) == QTREE_OUT_OF_RANGE);
    CHECK(qtree_latest(&device, 3, 0, 0, 9, &departure) == QTREE_OUT_OF_RANGE);
    CHECK(tc(&device, "tc qdisc change dev a root tbf rate 8mbit burst 1514 limit 20000") == QTREE_DONE);
    CHECK(qtree_latest(&device, QTREE_CLASS, 2, 1, 9, &departure) == QTREE_NOTHING && is_departure(departure, 7, 7, 7));
    qtree_close(&device);
}

/* A tree with each kind of qdisc, as numbers. */
static void nodes(void) {
    qtree_device device = QTREE_CLOSED;
    qtree_node_view node = { .limit = 7 };
    qtree_class_view class = { .quantum = 7 };
    qtree_packet packet = { .len = 600 };
    CHECK(qtree_node(&device, 0, &node) == QTREE_IS_CLOSED && qtree_class(&device, 0, 0, &class) == QTREE_IS_CLOSED);
    CHECK(node.limit == 7 && class.quantum == 7);
    CHECK(qtree_open(&device, &(qtree_settings){ 30, 0, 1514 }) == QTREE_DONE);
    CHECK(qtree_node(&device, 0, &node) == QTREE_DONE && node.kind == QTREE_PFIFO && node.limit == 30 && node.handle == 0);
    CHECK(node.place == QTREE_ROOT && node.parent_major == 0 && node.parent_minor == 0 && node.row.arrived.packets == 0);
    CHECK(qtree_class(&device, 0, 0, &class) == QTREE_NOTHING && class.quantum == 7);
    CHECK(tc(&device, "tc qdisc add dev a root handle 1: prio bands 3 priomap 1 2 2 2 1 2 0 0 1 1 1 1 1 1 1 2\n") == QTREE_DONE);
    CHECK(tc(&device, "tc qdisc add dev a parent 1:1 handle 2: tbf rate 8mbit burst 2000 latency 50ms") == QTREE_DONE);
    CHECK(tc(&device, "tc qdisc add dev a parent 1:2 handle ff: drr") == QTREE_DONE);
    CHECK(tc(&device, "tc class add dev a parent ff: classid ff:10 drr quantum 1500") == QTREE_DONE);
    CHECK(tc(&device, "tc class add dev a parent ff: classid ff:2 drr quantum 700") == QTREE_DONE);
    CHECK(tc(&device, "tc filter add dev a parent ff: prio 1 flower ip_proto udp classid ff:10") == QTREE_DONE);
    CHECK(tc(&device, "tc qdisc add dev a parent ff:10 handle 5: fq_codel limit 90 flows 8 quantum 300 target 2ms interval 40ms noecn "
                      "drop_batch 3") == QTREE_DONE);
    CHECK(tc(&device, "tc qdisc add dev a parent 1:3 handle 4: bfifo limit 5000") == QTREE_DONE);
    packet.family = 4;
    packet.proto = 17;
    CHECK(qtree_arrive(&device, &packet, 0) == QTREE_DONE);
    static const struct {
        uint32_t kind;
        uint16_t handle, major, minor;
        uint64_t packets;
    } wanted[] = { { QTREE_PRIO, 1, 0, 0, 1 },     { QTREE_TBF, 2, 1, 1, 0 },        { QTREE_BFIFO, 0, 2, 1, 0 },
                   { QTREE_DRR, 0xff, 1, 2, 1 },   { QTREE_FQ_CODEL, 5, 0xff, 0x10, 1 }, { QTREE_PFIFO, 0, 0xff, 2, 0 },
                   { QTREE_BFIFO, 4, 1, 3, 0 } };
    qtree_node_view all[7];
    for (size_t i = 0; i < 7; i++) {
        CHECK(qtree_node(&device, i, &all[i]) == QTREE_DONE && all[i].kind == wanted[i].kind && all[i].handle == wanted[i].handle);
        CHECK(all[i].place == (i == 0 ? QTREE_ROOT : QTREE_CLASS) && all[i].row.queued.packets == wanted[i].packets);
        CHECK(all[i].parent_major == wanted[i].major && all[i].parent_minor == wanted[i].minor);
    }
    CHECK(qtree_node(&device, 7, &node) == QTREE_NOTHING && qtree_node(&device, SIZE_MAX, &node) == QTREE_NOTHING && node.limit == 30);
    CHECK(all[0].bands == 3 && all[0].priomap[0] == 1 && all[0].priomap[6] == 0 && all[0].priomap[15] == 2 && all[1].priomap[0] == 0);
    CHECK(all[1].rate == 8000000 && all[1].burst == 2000 && all[1].limit == 52000 && all[0].rate == 0);
    CHECK(all[4].limit == 90 && all[4].flows == 8 && all[4].quantum == 300 && all[4].target == 2000000 && all[4].interval == 40000000);
    CHECK(all[4].new_flows == 1 && all[4].old_flows == 0 && all[3].new_flows == 0 && all[5].old_flows == 0);
    CHECK(all[4].ecn == 0 && all[4].drop_batch == 3 && all[4].mtu == 1514 && all[3].mtu == 0 && all[6].limit == 5000);
    CHECK(qtree_class(&device, 0, 2, &class) == QTREE_DONE && class.kind == QTREE_PRIO && class.major == 1 && class.minor == 3);
    CHECK(class.quantum == 0 && class.active == 0 && qtree_class(&device, 0, 3, &class) == QTREE_NOTHING);
    CHECK(qtree_class(&device, 1, 0, &class) == QTREE_DONE && class.kind == QTREE_TBF && class.major == 2 && class.minor == 1);
    CHECK(qtree_class(&device, 3, 0, &class) == QTREE_DONE && class.kind == QTREE_DRR && class.major == 0xff && class.minor == 0x10);
    CHECK(class.quantum == 1500 && class.active == 1 && class.deficit == 1500);
    CHECK(qtree_class(&device, 3, 1, &class) == QTREE_DONE && class.quantum == 700 && class.active == 0 && class.deficit == 0);
    CHECK(qtree_class(&device, 3, 2, &class) == QTREE_NOTHING && qtree_class(&device, 7, 0, &class) == QTREE_NOTHING);
    CHECK(qtree_arrive(&device, &packet, 0) == QTREE_DONE && qtree_poll(&device, 0, &packet) == QTREE_DONE);
    CHECK(qtree_node(&device, 4, &node) == QTREE_DONE && node.new_flows == 1 && node.old_flows == 0);
    CHECK(qtree_poll(&device, 0, &packet) == QTREE_DONE && qtree_node(&device, 4, &node) == QTREE_DONE && node.new_flows == 0);
    CHECK(node.old_flows == 1 && qtree_poll(&device, 0, &packet) == QTREE_IDLE);
    qtree_close(&device);
}

/* The names of the header are those of the library. */
static void names(void) {
    static const char *(*const forms[])(uint32_t) = { qtree_code_name, qtree_fault_name, qtree_kind_name };
    uint8_t text[20];
    size_t needed = 7;
    for (uint32_t what = QTREE_NAME_CODE; what <= QTREE_NAME_KIND; what++) {
        for (uint32_t number = 0; number < 300; number++) {
            uint32_t asked = number < 299 ? number : UINT32_MAX;
            CHECK(qtree_name_of(what, asked, text, sizeof text, &needed) == QTREE_DONE && same(text, needed, forms[what](asked)));
        }
    }
    CHECK(strcmp(qtree_code_name(QTREE_LOST_CODEL), "CoDel") == 0 && strcmp(qtree_code_name(QTREE_REFUSED_BUSY), "Busy") == 0);
    CHECK(strcmp(qtree_fault_name(0), "Unknown") == 0 && strcmp(qtree_code_name(7), "Unknown") == 0);
    CHECK(qtree_name_of(QTREE_NAME_CODE, 0, NULL, 0, &needed) == QTREE_ROOM && needed == 4);
    CHECK(qtree_name_of(3, 0, text, sizeof text, &needed) == QTREE_OUT_OF_RANGE && needed == 0);
}

/* Why a line was not done, in words. */
static void explained(void) {
    static const char line[] = "tc qdisc add dev a root handle 1: pfifo limt 9\n";
    static const char wanted[] = "line 5: tc qdisc add dev a root handle 1: pfifo limt 9\n"
                                 "                                                ^^^^\n";
    qtree_device device = QTREE_CLOSED;
    qtree_fault fault = { 9, 9 };
    uint8_t text[600] = { 9 };
    size_t needed = 7;
    CHECK(qtree_open(&device, &(qtree_settings){ 30, 0, 1514 }) == QTREE_DONE);
    CHECK(qtree_command(&device, (const uint8_t *)line, strlen(line), 0, &fault) == QTREE_FAULTY);
    CHECK(fault.number == QTREE_FAULT_UNKNOWN_WORD && fault.word == 10);
    const uint8_t *bytes = (const uint8_t *)line;
    CHECK(qtree_explain(bytes, strlen(line), 5, QTREE_FAULTY, &fault, text, 9, &needed) == QTREE_ROOM && needed > 100 && text[0] == 9);
    CHECK(qtree_explain(bytes, strlen(line), 5, QTREE_FAULTY, &fault, text, sizeof text, &needed) == QTREE_DONE);
    CHECK(needed > strlen(wanted) && memcmp(text, wanted, strlen(wanted)) == 0 && text[needed - 1] == '\n');
    for (qtree_code code = QTREE_REFUSED_NO_PARENT; code <= QTREE_MEMORY; code = code == QTREE_REFUSED_NO_FILTER ? QTREE_MEMORY : code + 1) {
        CHECK(qtree_explain(bytes, strlen(line), 5, code, &fault, text, sizeof text, &needed) == QTREE_DONE);
        CHECK(needed > 100 && memcmp(text, wanted, strcspn(wanted, "\n") + 1) == 0 && text[needed - 1] == '\n');
    }
    fault.number = 7;
    CHECK(qtree_explain(bytes, strlen(line), 5, QTREE_FAULTY, &fault, text, sizeof text, &needed) == QTREE_OUT_OF_RANGE && needed == 0);
    CHECK(qtree_explain(bytes, strlen(line), 5, QTREE_DONE, &fault, text, sizeof text, &needed) == QTREE_OUT_OF_RANGE && needed == 0);
    CHECK(tc(&device, "\n") == QTREE_NO_COMMAND && tc(&device, "tc qdisc add dev a root handle 1: drr\n") == QTREE_DONE);
    CHECK(tc(&device, "tc qdisc del dev a root\n\n") == QTREE_FAULTY && tc(&device, "tc qdisc del dev a root\n") == QTREE_DONE);
    qtree_close(&device);
}

int main(void) {
    layout();
    nodes();
    names();
    explained();
    recorders();
    bursts();
    bursts_of_a_drr();
    sizes();
    marks();
    frames();
    opening();
    buffers();
    ring_opening();
    rings();
    services();
    delays();
    departures();
    qtree_device device = QTREE_CLOSED;
    CHECK(qtree_open(&device, &(qtree_settings){ 1000, 0, 1514 }) == QTREE_DONE);
    commands(&device);
    shows(&device);
    packets(&device);
    qtree_close(&device);
    puts("test: every answer is right");
    return 0;
}
