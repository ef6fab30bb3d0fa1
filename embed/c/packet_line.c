#include "packet_line.h"

#include "addresses.h"

enum field { HASH, PRIO, IP_PROTO, SRC_IP, DST_IP, SRC_PORT, DST_PORT, ECN, FIELDS };

static const char *const names[FIELDS] = { "hash", "prio", "ip_proto", "src_ip", "dst_ip", "src_port", "dst_port", "ecn" };
static const uint64_t most[FIELDS] = { UINT32_MAX, 15, 0, 0, 0, UINT16_MAX, UINT16_MAX, 3 };

/* What was read of a line so far: the numbers, and the addresses, which are of one version. */
struct draft {
    bool is_given[FIELDS];
    uint64_t number[FIELDS];
    struct address src, dst;
};

static bool set_address(struct reader *reader, struct word word, uint8_t other, struct address *address) {
    return read_address(reader, word, address) &&
           (other == 0 || other == address->family || fault_here(reader, QTREE_FAULT_OUT_OF_RANGE));
}

static bool set_field(struct reader *reader, enum field field, struct word word, struct draft *draft) {
    uint8_t proto;
    switch (field) {
    case IP_PROTO:
        if (!read_protocol(reader, word, &proto)) {
            return false;
        }
        draft->number[IP_PROTO] = proto;
        return true;
    case SRC_IP:
        return set_address(reader, word, draft->dst.family, &draft->src);
    case DST_IP:
        return set_address(reader, word, draft->src.family, &draft->dst);
    default:
        return read_number(reader, word, 0, most[field], &draft->number[field]);
    }
}

static bool read_fields(struct reader *reader, struct draft *draft) {
    struct word word;
    for (;;) {
        if (!next_word(reader, &word)) {
            return false;
        }
        if (word.len == 0) {
            return true;
        }
        int field = 0;
        while (field < FIELDS && !word_is(word, names[field])) {
            field++;
        }
        if (field == FIELDS) {
            return fault_here(reader, QTREE_FAULT_UNKNOWN_WORD);
        }
        if (draft->is_given[field]) {
            return fault_here(reader, QTREE_FAULT_TWICE);
        }
        if (!needed_word(reader, &word) || !set_field(reader, (enum field)field, word, draft)) {
            return false;
        }
        draft->is_given[field] = true;
    }
}

static bool read_len(struct reader *reader, qtree_packet *packet) {
    struct word word;
    uint64_t len;
    if (!needed_word(reader, &word) || !read_number(reader, word, 1, UINT16_MAX, &len)) {
        return false;
    }
    *packet = (qtree_packet){ .len = (uint16_t)len };
    return true;
}

bool read_packet(struct reader *reader, uint32_t seed, qtree_packet *packet) {
    struct draft draft = { 0 };
    if (!read_len(reader, packet) || !read_fields(reader, &draft)) {
        return false;
    }
    packet->family = draft.src.family != 0 ? draft.src.family : draft.dst.family;
    packet->src_high = draft.src.high;
    packet->src_low = draft.src.low;
    packet->dst_high = draft.dst.high;
    packet->dst_low = draft.dst.low;
    packet->proto = (uint8_t)draft.number[IP_PROTO];
    packet->sport = (uint16_t)draft.number[SRC_PORT];
    packet->dport = (uint16_t)draft.number[DST_PORT];
    packet->prio = (uint8_t)draft.number[PRIO];
    packet->ecn = (uint8_t)draft.number[ECN];
    qtree_hash(seed, packet);
    if (draft.is_given[HASH]) {
        packet->hash = (uint32_t)draft.number[HASH];
    }
    return true;
}

bool read_frame(struct reader *reader, uint32_t seed, qtree_packet *packet) {
    struct word word;
    if (!read_len(reader, packet) || !needed_word(reader, &word)) {
        return false;
    }
    uint8_t bytes[64];
    size_t count = 0;
    bool is_odd = word.len % 2 != 0;
    for (size_t i = 0; i < word.len; i++) {
        int digit = digit_value(word.at[i], 16);
        if (is_odd || digit < 0) {
            return fault_here(reader, QTREE_FAULT_BAD_NUMBER);
        }
        if (i % 2 == 1 && count < sizeof bytes) {
            bytes[count++] = (uint8_t)(digit_value(word.at[i - 1], 16) << 4 | digit);
        }
    }
    if (!line_ends(reader)) {
        return false;
    }
    qtree_read_head(bytes, count, seed, packet);
    return true;
}
