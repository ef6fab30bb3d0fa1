#include "batch.h"

/* So many descriptors are filled at a time: 2 KB of stack. */
enum { BURST = 32 };

qtree_code qtree_batch_frames(qtree_device *device, const uint8_t *base, size_t size, const qtree_batch_frame *frames, size_t count,
                              uint32_t seed, uint64_t now, uint8_t *codes, size_t *done) {
    qtree_packet packets[BURST];
    qtree_code code = QTREE_DONE;
    *done = 0;
    while (*done < count && code == QTREE_DONE) {
        size_t filled = 0, arrived;
        while (filled < BURST && *done + filled < count) {
            const qtree_batch_frame *frame = &frames[*done + filled];
            if (frame->offset > size || frame->count > size - frame->offset) {
                break;
            }
            packets[filled] = (qtree_packet){ .number = frame->number, .buf = frame->buf, .len = frame->len };
            qtree_read_head(base + frame->offset, frame->count, seed, &packets[filled]);
            filled++;
        }
        code = qtree_arrive_many(device, packets, filled, codes + *done, filled, &arrived, now);
        *done += arrived;
        if (filled == 0 && code == QTREE_DONE) {
            code = QTREE_OUT_OF_RANGE;
        }
    }
    return code;
}

qtree_code qtree_batch_hash(qtree_packet *packets, size_t count, uint32_t seed, size_t *done) {
    qtree_code code = QTREE_DONE;
    for (*done = 0; *done < count; ++*done) {
        code = qtree_hash(seed, &packets[*done]);
        if (code != QTREE_DONE) {
            break;
        }
    }
    return code;
}

const char *qtree_batch_sentence(qtree_code code) { return qtree_code_sentence(code); }

/* A device whose packets are followed: a packet's number is its index. */
typedef struct followed {
    qtree_device *device;
    qtree_batch_fate *fates;
    size_t count;
    uint64_t rate;
    uint64_t free_at; /* when the link is free */
} followed;

static void note(const followed *run, uint64_t number, qtree_batch_fate fate) {
    if (number < run->count) {
        run->fates[number] = fate;
    }
}

static void note_losses(const followed *run, uint64_t at) {
    qtree_loss loss;
    while (qtree_reap(run->device, &loss) == QTREE_DONE) {
        note(run, loss.packet.number, (qtree_batch_fate){ .at = at, .code = loss.cause, .ecn = loss.packet.ecn });
    }
}

/* How long a packet takes on the link, rounded up. */
static uint64_t takes(const followed *run, uint16_t len) {
    return run->rate == 0 ? 0 : ((uint64_t)len * 8 * 1000000000 + run->rate - 1) / run->rate;
}

/* Sends all that can go before a time. */
static void send_before(followed *run, uint64_t stop) {
    uint64_t at;
    qtree_sent sent;
    while (qtree_ready_at(run->device, &at) == QTREE_DONE) {
        at = at < run->free_at ? run->free_at : at;
        if (at >= stop) {
            break;
        }
        if (qtree_poll_buf(run->device, at, &sent) == QTREE_DONE) {
            note(run, sent.number, (qtree_batch_fate){ .at = at, .code = QTREE_DONE, .ecn = sent.ecn });
            run->free_at = at + takes(run, sent.len);
        }
        note_losses(run, at);
    }
}

qtree_code qtree_batch_simulate(qtree_device *device, const qtree_packet *packets, const uint64_t *times, size_t count, uint64_t rate,
                                uint64_t end, qtree_batch_fate *fates, size_t *done) {
    uint64_t stop = end < QTREE_MOMENT_MAX ? end + 1 : QTREE_MOMENT_MAX + 1;
    followed run = { .device = device, .fates = fates, .count = count, .rate = rate };
    for (*done = 0; *done < count; ++*done) {
        qtree_packet packet = packets[*done];
        uint64_t at = times[*done];
        if (at > QTREE_MOMENT_MAX || (*done > 0 && at < times[*done - 1])) {
            return QTREE_OUT_OF_RANGE;
        }
        send_before(&run, at < stop ? at : stop);
        packet.number = *done;
        note(&run, *done, (qtree_batch_fate){ .at = end, .code = QTREE_LATER, .ecn = packet.ecn });
        qtree_code code = qtree_arrive(device, &packet, at);
        if (code != QTREE_DONE && !qtree_is_loss(code)) {
            return code;
        }
        note_losses(&run, at);
    }
    send_before(&run, stop);
    return QTREE_DONE;
}
