/* One direction: frames are read, queued by a device and sent, by a thread of its own. */
#include "head.h"
#include "wire.h"

#include <poll.h>
#include <sys/eventfd.h>
#include <sys/prctl.h>
#include <time.h>

enum { ROUNDS = 8 }; /* batches that are sent before frames are read again */

const char *const lost_names[LOST_WAYS] = { "socket", "too_long", "no_buffer", "refused", "unsent" };

uint64_t clock_now(void) {
    struct timespec now;
    clock_gettime(CLOCK_MONOTONIC, &now);
    return (uint64_t)now.tv_sec * 1000000000 + (uint64_t)now.tv_nsec;
}

void direction_lose(struct direction *way, int cause, uint64_t count) { count_up(&way->counts.lost[cause], count); }

void direction_reap(struct direction *way) {
    qtree_loss losses[BATCH];
    size_t count;
    do {
        qtree_reap_many(&way->device, losses, BATCH, &count);
        for (size_t i = 0; i < count; i++) {
            qtree_count *lost = &way->losses.by_cause[losses[i].cause];
            lost->packets++;
            lost->bytes += losses[i].packet.len;
            pool_give(&way->pool, losses[i].packet.buf);
        }
    } while (count == BATCH);
}

void direction_take(struct direction *way, uint32_t buf, uint64_t now) {
    static const uint8_t nothing[1];
    struct frame *frame = &way->pool.frames[buf];
    const uint8_t *bytes = slot_of(&way->pool, buf) + frame->at;
    uint32_t counted = frame->len + way->overhead;
    frame->ip = (uint32_t)head_ip_at(bytes, frame->len);
    size_t head = frame->ip == 0 ? 0 : frame->len - frame->ip;
    count_up(&way->counts.read, 1);
    count_up(&way->counts.read_bytes, frame->len);
    count_up(&way->counts.not_ip, frame->ip == 0);
    qtree_code code = qtree_arrive_frame_seeded(&way->device, head == 0 ? nothing : bytes + frame->ip, head < HEAD ? head : HEAD,
                                                (uint16_t)(counted < UINT16_MAX ? counted : UINT16_MAX), buf, way->seed, now);
    if (code != QTREE_DONE && !qtree_is_loss(code)) {
        direction_lose(way, LOST_REFUSED, 1);
        pool_give(&way->pool, buf);
    }
    direction_reap(way);
}

static void send_all(struct direction *way, const qtree_sent *sent, size_t count) {
    uint32_t bufs[BATCH];
    for (size_t i = 0; i < count; i++) {
        const struct frame *frame = &way->pool.frames[sent[i].buf];
        bufs[i] = sent[i].buf;
        if (sent[i].ecn == CE && frame->ip != 0) {
            qtree_mark_head(slot_of(&way->pool, sent[i].buf) + frame->at + frame->ip, frame->len - frame->ip);
        }
    }
    way->io->send(way, bufs, count);
}

static uint64_t next_due(struct direction *way, uint64_t now) {
    uint64_t due;
    due = qtree_ready_at(&way->device, &due) == QTREE_DONE ? due : UINT64_MAX;
    lateness_note(&way->lateness, due, now);
    return due;
}

/* Sends what is due; when the next is. */
static uint64_t send_due(struct direction *way) {
    uint64_t now = clock_now(), due = next_due(way, now);
    lateness_count(&way->lateness, now);
    for (int round = 0; round < ROUNDS && due <= now; round++) {
        qtree_sent sent[BATCH];
        size_t count = 0, room = way->io->room(way);
        if (room == 0) {
            way->is_blocked = true;
            return UINT64_MAX;
        }
        if (qtree_poll_bufs(&way->device, now, sent, room, &count) != QTREE_DONE) {
            way->lateness.due = UINT64_MAX;
        }
        direction_reap(way);
        if (count > 0) {
            send_all(way, sent, count);
        }
        due = next_due(way, now);
    }
    return due;
}

/* With a nap, a turn serves all that came or became due in one. */
static bool takes_nap(struct direction *way, uint64_t next, uint64_t now, int count) {
    bool is_soon = count > 0 || (next > now && next - now < way->nap);
    if (way->nap == 0 || way->is_blocked || count == BATCH || !is_soon) {
        return false;
    }
    nanosleep(&(struct timespec){ (time_t)(way->nap / 1000000000), (long)(way->nap % 1000000000) }, NULL);
    return true;
}

/* Sleeps until a frame comes, one is due, the card can be written again, or another thread asks. */
static void rest(struct direction *way, uint64_t next, int count) {
    uint64_t now = clock_now();
    if (takes_nap(way, next, now, count) || count > 0 || next <= now) {
        return;
    }
    struct timespec left = { (time_t)((next - now) / 1000000000), (long)((next - now) % 1000000000) };
    struct pollfd watched[MOST_INPUTS + 2];
    size_t watched_count = 0;
    for (size_t i = 0; i < way->input_count; i++) {
        watched[watched_count++] = (struct pollfd){ way->inputs[i], POLLIN, 0 };
    }
    watched[watched_count++] = (struct pollfd){ way->bell, POLLIN, 0 };
    if (way->is_blocked) {
        watched[watched_count++] = (struct pollfd){ way->output, POLLOUT, 0 };
    }
    count_up(&way->counts.sleeps, 1);
    eventfd_t rung;
    if (ppoll(watched, watched_count, next == UINT64_MAX ? NULL : &left, NULL) > 0 && watched[way->input_count].revents != 0) {
        eventfd_read(way->bell, &rung);
    }
}

static void answer(struct direction *way) {
    struct request *request = atomic_load_explicit(&way->request, memory_order_acquire);
    if (request != NULL) {
        request->act(way, request->with);
        atomic_store(&way->request, NULL);
        sem_post(&request->done);
    }
}

void *direction_run(void *of) {
    struct direction *way = of;
    prctl(PR_SET_TIMERSLACK, 1UL);
    while (!atomic_load_explicit(&way->is_over, memory_order_relaxed)) {
        way->is_blocked = false;
        int count = way->io->receive(way);
        uint64_t next = send_due(way);
        count_up(&way->counts.turns, 1);
        answer(way);
        rest(way, next, count);
    }
    return NULL;
}

void direction_ask(struct direction *way, void (*act)(struct direction *way, void *with), void *with) {
    struct request request = { .act = act, .with = with };
    sem_init(&request.done, 0, 0);
    atomic_store(&way->request, &request);
    eventfd_write(way->bell, 1);
    while (sem_wait(&request.done) != 0) {
    }
    sem_destroy(&request.done);
}
