/* AF_PACKET, by recvmmsg and sendmmsg. It reads the frames of all queues of a card. What the kernel left open, as a checksum that the card
 * would fill in, is passed on as it is. */
#include "wire.h"

#include <arpa/inet.h>
#include <errno.h>
#include <linux/if_ether.h>
#include <linux/if_packet.h>
#include <stdio.h>
#include <stdlib.h>
#include <string.h>
#include <sys/socket.h>
#include <unistd.h>

enum { INPUT_BYTES = 8 << 20, OUTPUT_BYTES = 4 << 20 };

struct state {
    struct mmsghdr in[BATCH], out[BATCH];
    struct iovec in_parts[BATCH][2], out_parts[BATCH][2];
    char control[BATCH][CMSG_SPACE(sizeof(struct tpacket_auxdata))];
    uint32_t lent[BATCH]; /* slots of the next read */
    size_t lent_count;
    uint32_t kept[BATCH]; /* what the card did not take yet */
    size_t kept_count;
    uint64_t dropped;
};

static bool set(int socket, int name, int value) { return setsockopt(socket, SOL_PACKET, name, &value, sizeof value) == 0; }

static bool set_input(int input) {
    int bytes = INPUT_BYTES;
    setsockopt(input, SOL_SOCKET, SO_RCVBUFFORCE, &bytes, sizeof bytes);
    return set(input, PACKET_AUXDATA, 1) && set(input, PACKET_IGNORE_OUTGOING, 1);
}

static bool set_output(int output) {
    int bytes = OUTPUT_BYTES;
    setsockopt(output, SOL_SOCKET, SO_SNDBUFFORCE, &bytes, sizeof bytes);
    return set(output, PACKET_QDISC_BYPASS, 1);
}

static int open_socket(const char *card, bool reads) {
    int fd = socket(AF_PACKET, SOCK_RAW | SOCK_NONBLOCK | SOCK_CLOEXEC, 0);
    struct sockaddr_ll at = { .sll_family = AF_PACKET,
                              .sll_protocol = htons(reads ? ETH_P_ALL : 0),
                              .sll_ifindex = (int)if_nametoindex(card) };
    bool is_set = fd >= 0 && set(fd, PACKET_VNET_HDR, 1) && (reads ? set_input(fd) : set_output(fd));
    if (!is_set || bind(fd, (struct sockaddr *)&at, sizeof at) != 0) {
        fprintf(stderr, "qtree-wire: %s: %s\n", card, strerror(errno));
        return -1;
    }
    return fd;
}

static bool packet_open(struct direction *both) {
    bool is_open = true;
    for (int i = 0; i < 2; i++) {
        struct direction *way = &both[i];
        way->inputs[0] = open_socket(way->from, true);
        way->output = open_socket(way->to, false);
        way->input_count = 1;
        way->state = calloc(1, sizeof(struct state));
        is_open = is_open && way->inputs[0] >= 0 && way->output >= 0 && way->state != NULL;
    }
    return is_open;
}

/* The kernel takes the outermost tag of a frame out, and says which it was. */
static void put_tag_back(struct pool *pool, uint32_t buf, struct msghdr *message) {
    struct frame *frame = &pool->frames[buf];
    for (struct cmsghdr *it = CMSG_FIRSTHDR(message); it != NULL; it = CMSG_NXTHDR(message, it)) {
        struct tpacket_auxdata found;
        if (it->cmsg_level != SOL_PACKET || it->cmsg_type != PACKET_AUXDATA) {
            continue;
        }
        memcpy(&found, CMSG_DATA(it), sizeof found);
        if ((found.tp_status & TP_STATUS_VLAN_VALID) == 0) {
            continue;
        }
        uint8_t *bytes = slot_of(pool, buf) + frame->at - 4;
        uint16_t tag[2] = { htons((found.tp_status & TP_STATUS_VLAN_TPID_VALID) != 0 ? found.tp_vlan_tpid : ETH_P_8021Q),
                            htons(found.tp_vlan_tci) };
        memmove(bytes, bytes + 4, 12);
        memcpy(bytes + 12, tag, sizeof tag);
        frame->at -= 4;
        frame->len += 4;
        frame->open.csum_start = (uint16_t)(frame->open.csum_start + ((frame->open.flags & VIRTIO_NET_HDR_F_NEEDS_CSUM) != 0 ? 4 : 0));
        frame->open.hdr_len = (uint16_t)(frame->open.hdr_len + (frame->open.gso_type != VIRTIO_NET_HDR_GSO_NONE ? 4 : 0));
    }
}

/* Where no slot is free, frames are read all the same, so that each is counted. */
static int read_away(struct direction *way) {
    char byte;
    int count = 0;
    while (count < BATCH && recv(way->inputs[0], &byte, 1, MSG_DONTWAIT) >= 0) {
        count++;
    }
    direction_lose(way, LOST_NO_BUFFER, (uint64_t)count);
    return count;
}

static void lend(struct direction *way, struct state *state) {
    while (state->lent_count < BATCH && pool_take(&way->pool, &state->lent[state->lent_count])) {
        state->lent_count++;
    }
    for (size_t i = 0; i < state->lent_count; i++) {
        uint32_t buf = state->lent[i];
        struct virtio_net_hdr *open = &way->pool.frames[buf].open;
        state->in_parts[i][0] = (struct iovec){ open, sizeof *open };
        state->in_parts[i][1] = (struct iovec){ slot_of(&way->pool, buf) + HEADROOM, way->pool.slot - HEADROOM };
        state->in[i].msg_hdr = (struct msghdr){
            .msg_iov = state->in_parts[i],
            .msg_iovlen = 2,
            .msg_control = state->control[i],
            .msg_controllen = sizeof state->control[i],
        };
    }
}

static int packet_receive(struct direction *way) {
    struct state *state = way->state;
    lend(way, state);
    if (state->lent_count == 0) {
        return read_away(way);
    }
    int count = recvmmsg(way->inputs[0], state->in, (unsigned)state->lent_count, MSG_DONTWAIT, NULL);
    if (count <= 0) {
        return 0;
    }
    uint64_t now = clock_now();
    for (int i = 0; i < count; i++) {
        uint32_t buf = state->lent[i];
        struct frame *frame = &way->pool.frames[buf];
        if ((state->in[i].msg_hdr.msg_flags & MSG_TRUNC) != 0 || state->in[i].msg_len < sizeof frame->open + 14) {
            direction_lose(way, LOST_TOO_LONG, 1);
            pool_give(&way->pool, buf);
            continue;
        }
        frame->at = HEADROOM;
        frame->len = state->in[i].msg_len - (uint32_t)sizeof frame->open;
        put_tag_back(&way->pool, buf, &state->in[i].msg_hdr);
        direction_take(way, buf, now);
    }
    state->lent_count -= (size_t)count;
    memmove(state->lent, state->lent + count, state->lent_count * sizeof state->lent[0]);
    return count;
}

/* Sends what is kept. A frame that the card refuses is lost: the card is down or full, or the frame is too long for it. */
static void flush(struct direction *way) {
    struct state *state = way->state;
    size_t done = 0;
    for (size_t i = 0; i < state->kept_count; i++) {
        struct frame *frame = &way->pool.frames[state->kept[i]];
        state->out_parts[i][0] = (struct iovec){ &frame->open, sizeof frame->open };
        state->out_parts[i][1] = (struct iovec){ slot_of(&way->pool, state->kept[i]) + frame->at, frame->len };
        state->out[i].msg_hdr = (struct msghdr){ .msg_iov = state->out_parts[i], .msg_iovlen = 2 };
    }
    while (done < state->kept_count) {
        int count = sendmmsg(way->output, state->out + done, (unsigned)(state->kept_count - done), MSG_DONTWAIT);
        if (count < 0 && errno == EAGAIN) {
            break;
        }
        if (count < 0) {
            direction_lose(way, LOST_UNSENT, 1);
            pool_give(&way->pool, state->kept[done++]);
        }
        for (int i = 0; i < count; i++) {
            count_up(&way->counts.written, 1);
            count_up(&way->counts.written_bytes, way->pool.frames[state->kept[done]].len);
            pool_give(&way->pool, state->kept[done++]);
        }
    }
    state->kept_count -= done;
    memmove(state->kept, state->kept + done, state->kept_count * sizeof state->kept[0]);
}

static size_t packet_room(struct direction *way) {
    struct state *state = way->state;
    if (state->kept_count > 0) {
        flush(way);
    }
    return state->kept_count > 0 ? 0 : BATCH;
}

static void packet_send(struct direction *way, const uint32_t *bufs, size_t count) {
    struct state *state = way->state;
    memcpy(state->kept, bufs, count * sizeof *bufs);
    state->kept_count = count;
    flush(way);
}

/* The kernel's count begins anew each time that it is read. */
static uint64_t packet_dropped(struct direction *way) {
    struct state *state = way->state;
    struct tpacket_stats since = { 0 };
    socklen_t len = sizeof since;
    if (getsockopt(way->inputs[0], SOL_PACKET, PACKET_STATISTICS, &since, &len) == 0) {
        state->dropped += since.tp_drops;
    }
    return state->dropped;
}

static void packet_close(struct direction *both, bool keeps_passing) {
    (void)keeps_passing;
    for (int i = 0; i < 2; i++) {
        close(both[i].inputs[0]);
        close(both[i].output);
        free(both[i].state);
        pool_close(&both[i].pool, true);
    }
}

const struct io io_packet = { "packet", packet_open, packet_receive, packet_send, packet_room, packet_dropped, packet_close };
