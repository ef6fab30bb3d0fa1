/* The device of a row, and what happens to it before the call. */
#include "longest.h"

#include <stdarg.h>
#include <stdio.h>
#include <stdlib.h>
#include <string.h>

qtree_device device = QTREE_CLOSED;
uint64_t now;

_Noreturn void fail(const char *file, int line, const char *what) {
    fprintf(stderr, "%s:%d: %s does not hold\n", file, line, what);
    exit(1);
}

void open_device(uint16_t mtu) {
    qtree_settings settings = QTREE_DEFAULTS;
    settings.mtu = mtu;
    MUST(qtree_open(&device, &settings) == QTREE_DONE);
}

void tc(const char *format, ...) {
    char line[512] = "tc ";
    va_list words;
    qtree_fault fault;
    va_start(words, format);
    vsnprintf(line + 3, sizeof line - 3, format, words);
    va_end(words);
    qtree_code code = qtree_command(&device, (const uint8_t *)line, strlen(line), now, &fault);
    if (code != QTREE_DONE) {
        fprintf(stderr, "%s: %s\n", line, qtree_code_name(code));
        exit(1);
    }
}

void arrives_with_prio(uint32_t flow, uint16_t len, uint8_t prio) {
    qtree_packet packet = {
        .len = len, .hash = flow, .prio = prio, .family = 4, .proto = 17, .src_low = 1, .dst_low = 2, .dport = (uint16_t)flow
    };
    MUST(qtree_arrive(&device, &packet, now) == QTREE_DONE);
}

void arrives(uint32_t flow, uint16_t len) { arrives_with_prio(flow, len, 0); }

void poll_once(void) {
    qtree_packet packet;
    MUST(qtree_poll(&device, now, &packet) == QTREE_DONE);
}

void sends(uint64_t packets) {
    for (; packets > 0; packets--) {
        poll_once();
    }
}
