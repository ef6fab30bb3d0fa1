#include "reader.h"

#include <string.h>

static bool is_blank(uint8_t byte) { return byte == ' ' || byte == '\t' || byte == '\r'; }

struct reader reader_of(const uint8_t *line, size_t len) { return (struct reader){ line, len, 0, { 0, 0 } }; }

/* How many bytes the first character takes, by RFC 3629; 0 if the first bytes are no character. */
static size_t character(const uint8_t *at, size_t left) {
    if (at[0] < 0x80) {
        return 1;
    }
    size_t len = at[0] >= 0xf0 ? 4 : at[0] >= 0xe0 ? 3 : 2;
    uint32_t code = at[0] & (0x7fu >> len);
    if (at[0] < 0xc2 || at[0] > 0xf4 || left < len) {
        return 0;
    }
    for (size_t i = 1; i < len; i++) {
        if ((at[i] & 0xc0) != 0x80) {
            return 0;
        }
        code = code << 6 | (at[i] & 0x3fu);
    }
    static const uint32_t least[] = { 0, 0, 0x80, 0x800, 0x10000 };
    bool is_character = code >= least[len] && code <= 0x10ffff && !(code >= 0xd800 && code <= 0xdfff);
    return is_character ? len : 0;
}

static bool is_utf8(struct word word) {
    for (size_t at = 0; at < word.len;) {
        size_t len = character(word.at + at, word.len - at);
        if (len == 0) {
            return false;
        }
        at += len;
    }
    return true;
}

bool fault_here(struct reader *reader, uint32_t number) {
    reader->fault = (qtree_fault){ reader->taken, number };
    return false;
}

bool next_word(struct reader *reader, struct word *word) {
    while (reader->left > 0 && is_blank(*reader->rest)) {
        reader->rest++;
        reader->left--;
    }
    *word = (struct word){ reader->rest, 0 };
    if (reader->left == 0) {
        return true;
    }
    while (reader->left > 0 && !is_blank(*reader->rest)) {
        reader->rest++;
        reader->left--;
        word->len++;
    }
    reader->taken++;
    return is_utf8(*word) || fault_here(reader, QTREE_FAULT_BAD_UTF8);
}

bool needed_word(struct reader *reader, struct word *word) {
    if (!next_word(reader, word)) {
        return false;
    }
    if (word->len == 0) {
        reader->fault = (qtree_fault){ reader->taken + 1, QTREE_FAULT_MISSING };
        return false;
    }
    return true;
}

bool line_ends(struct reader *reader) {
    struct word word;
    if (!next_word(reader, &word)) {
        return false;
    }
    return word.len == 0 || fault_here(reader, QTREE_FAULT_UNKNOWN_WORD);
}

bool word_is(struct word word, const char *name) { return word.len == strlen(name) && memcmp(word.at, name, word.len) == 0; }

int digit_value(uint8_t byte, int base) {
    int value = byte >= '0' && byte <= '9'   ? byte - '0'
                : byte >= 'a' && byte <= 'z' ? byte - 'a' + 10
                : byte >= 'A' && byte <= 'Z' ? byte - 'A' + 10
                                             : -1;
    return value < base ? value : -1;
}

bool read_number(struct reader *reader, struct word word, uint64_t low, uint64_t high, uint64_t *number) {
    uint64_t value = 0;
    bool is_large = false;
    for (size_t i = 0; i < word.len; i++) {
        int digit = digit_value(word.at[i], 10);
        if (digit < 0) {
            return fault_here(reader, QTREE_FAULT_BAD_NUMBER);
        }
        is_large = is_large || value > (UINT64_MAX - (uint64_t)digit) / 10;
        value = is_large ? UINT64_MAX : value * 10 + (uint64_t)digit;
    }
    if (word.len == 0) {
        return fault_here(reader, QTREE_FAULT_BAD_NUMBER);
    }
    *number = value;
    return (value >= low && value <= high) || fault_here(reader, QTREE_FAULT_OUT_OF_RANGE);
}
