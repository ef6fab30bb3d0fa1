#include "head.h"

#include <stdbool.h>

enum { MOST_TAGS = 3, MOST_LABELS = 8 };

static unsigned number_at(const uint8_t *frame, size_t at) { return (unsigned)frame[at] << 8 | frame[at + 1]; }

static bool is_tag(unsigned type) { return type == 0x8100 || type == 0x88a8 || type == 0x9100; }

/* A session's data has version and type 1 and the code 0; its header has six bytes, and the protocol of PPP follows. */
static size_t behind_session(const uint8_t *frame, size_t len, size_t at) {
    if (len < at + 8 || frame[at] != 0x11 || frame[at + 1] != 0) {
        return 0;
    }
    unsigned protocol = number_at(frame, at + 6);
    return protocol == 0x0021 || protocol == 0x0057 ? at + 8 : 0;
}

/* The last label has its lowest bit but eight set. What follows is not named: a packet of IP begins with its version. */
static size_t behind_labels(const uint8_t *frame, size_t len, size_t at) {
    for (int labels = 0; labels < MOST_LABELS && len > at + 4; labels++, at += 4) {
        if ((frame[at + 2] & 1) != 0) {
            unsigned version = frame[at + 4] >> 4;
            return version == 4 || version == 6 ? at + 4 : 0;
        }
    }
    return 0;
}

size_t head_ip_at(const uint8_t *frame, size_t len) {
    size_t at = 12;
    for (int tags = 0; tags < MOST_TAGS && len >= at + 4 && is_tag(number_at(frame, at)); tags++) {
        at += 4;
    }
    if (len < at + 2) {
        return 0;
    }
    switch (number_at(frame, at)) {
    case 0x0800:
    case 0x86dd: return at + 2;
    case 0x8864: return behind_session(frame, len, at + 2);
    case 0x8847:
    case 0x8848: return behind_labels(frame, len, at + 2);
    default: return 0;
    }
}
