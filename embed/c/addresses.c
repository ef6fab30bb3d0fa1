#include "addresses.h"

#include <string.h>

/* The piece up to the next such byte, which goes with it; false where none is left. */
static bool next_piece(struct word *rest, uint8_t mark, struct word *piece, bool *more) {
    if (!*more) {
        return false;
    }
    *piece = (struct word){ rest->at, 0 };
    while (piece->len < rest->len && rest->at[piece->len] != mark) {
        piece->len++;
    }
    *more = piece->len < rest->len;
    size_t gone = piece->len + (*more ? 1 : 0);
    *rest = (struct word){ rest->at + gone, rest->len - gone };
    return true;
}

/* Four numbers: a form that is wrong anywhere goes before a number that is too large, and a fourth digit comes last. */
static uint32_t ipv4(struct word word, struct address *address) {
    struct word piece;
    bool more = true, is_large = false, is_long = false;
    unsigned count = 0;
    uint64_t bits = 0;
    while (next_piece(&word, '.', &piece, &more)) {
        uint64_t value = 0;
        for (size_t i = 0; i < piece.len; i++) {
            int digit = digit_value(piece.at[i], 10);
            if (digit < 0) {
                return QTREE_FAULT_BAD_NUMBER;
            }
            value = value > 255 ? value : value * 10 + (uint64_t)digit;
        }
        if (piece.len == 0 || ++count > 4) {
            return QTREE_FAULT_BAD_NUMBER;
        }
        is_large = is_large || value > 255;
        is_long = is_long || piece.len > 3;
        bits = bits << 8 | (value & 0xff);
    }
    *address = (struct address){ 0, bits, 4 };
    return count != 4 ? QTREE_FAULT_BAD_NUMBER : is_large ? QTREE_FAULT_OUT_OF_RANGE : is_long ? QTREE_FAULT_BAD_NUMBER : 0;
}

/* Groups of up to four hexadecimal digits, eight at most; how many there are, or -1. */
static int groups(struct word word, uint16_t *found) {
    struct word piece;
    bool more = word.len > 0;
    int count = 0;
    while (next_piece(&word, ':', &piece, &more)) {
        unsigned value = 0;
        for (size_t i = 0; i < piece.len && i < 4; i++) {
            int digit = digit_value(piece.at[i], 16);
            if (digit < 0) {
                return -1;
            }
            value = value << 4 | (unsigned)digit;
        }
        if (piece.len == 0 || piece.len > 4 || count == 8) {
            return -1;
        }
        found[count++] = (uint16_t)value;
    }
    return count;
}

/* RFC 4291, section 2.2: two colons mean one or more groups of zeros. */
static uint32_t ipv6(struct word word, struct address *address) {
    size_t gap = 0;
    while (gap + 1 < word.len && memcmp(word.at + gap, "::", 2) != 0) {
        gap++;
    }
    bool has_gap = gap + 1 < word.len;
    uint16_t found[8] = { 0 }, behind[8];
    int high = groups((struct word){ word.at, has_gap ? gap : word.len }, found);
    int low = has_gap ? groups((struct word){ word.at + gap + 2, word.len - gap - 2 }, behind) : 0;
    if (high < 0 || low < 0 || high + low > 8 || has_gap == (high + low == 8)) {
        return QTREE_FAULT_BAD_NUMBER;
    }
    for (int i = 0; i < low; i++) {
        found[8 - low + i] = behind[i];
    }
    *address = (struct address){ 0, 0, 6 };
    for (int i = 0; i < 4; i++) {
        address->high = address->high << 16 | found[i];
        address->low = address->low << 16 | found[4 + i];
    }
    return 0;
}

bool read_address(struct reader *reader, struct word word, struct address *address) {
    bool has_colon = memchr(word.at, ':', word.len) != NULL;
    uint32_t fault = has_colon ? ipv6(word, address) : ipv4(word, address);
    return fault == 0 || fault_here(reader, fault);
}

bool read_protocol(struct reader *reader, struct word word, uint8_t *proto) {
    static const struct {
        const char *name;
        uint8_t proto;
    } known[] = { { "tcp", 6 }, { "udp", 17 }, { "sctp", 132 }, { "icmp", 1 }, { "icmpv6", 58 } };
    for (size_t i = 0; i < sizeof known / sizeof known[0]; i++) {
        if (word_is(word, known[i].name)) {
            *proto = known[i].proto;
            return true;
        }
    }
    uint64_t value = 0;
    for (size_t i = 0; i < word.len; i++) {
        int digit = digit_value(word.at[i], 16);
        if (digit < 0) {
            return fault_here(reader, QTREE_FAULT_BAD_NUMBER);
        }
        value = value > 0xff ? value : value << 4 | (uint64_t)digit;
    }
    if (word.len == 0 || value > 0xff) {
        return fault_here(reader, word.len == 0 ? QTREE_FAULT_BAD_NUMBER : QTREE_FAULT_OUT_OF_RANGE);
    }
    *proto = (uint8_t)value;
    return true;
}
