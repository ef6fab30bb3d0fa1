// The example of docs/EMBEDDING.md in C++11, with a device that closes itself.
#include "qtree.h"
#include <cinttypes>
#include <cstdio>

namespace {

struct Device {
    qtree_device raw = QTREE_CLOSED;
    Device() = default;
    Device(const Device &) = delete;
    Device &operator=(const Device &) = delete;
    ~Device() { qtree_close(&raw); }
};

bool set_up(Device &device) {
    const qtree_settings settings = QTREE_DEFAULTS;
    const char *line = "tc qdisc add dev wan root handle 1: tbf rate 8mbit burst 2000 latency 50ms";
    return qtree_open(&device.raw, &settings) == QTREE_DONE && qtree_run(&device.raw, line, 0, nullptr) == QTREE_DONE;
}

} // namespace

int main() {
    Device device;
    if (!set_up(device)) {
        return 1;
    }
    for (uint32_t buf = 0; buf < 3; buf++) {
        qtree_packet packet{};
        packet.len = 1000;
        packet.buf = buf;
        qtree_arrive(&device.raw, &packet, 0);
    }
    uint64_t now;
    while (qtree_ready_at(&device.raw, &now) == QTREE_DONE) {
        qtree_packet packet;
        if (qtree_poll(&device.raw, now, &packet) == QTREE_DONE) {
            std::printf("%" PRIu32 " at %" PRIu64 "\n", packet.buf, now);
        }
    }
    return 0;
}
