/* What is wrong with the cards or the set-up, and the line that cures it. */
#include "answers.h"
#include "burst.h"
#include "card.h"

#include <inttypes.h>
#include <string.h>

struct found {
    FILE *file;
    int count;
};

/* One fault, and its cure. */
#define SAY(found, ...) ((found)->count++, fprintf((found)->file, __VA_ARGS__))

static void say_offloads(const struct card *card, bool is_xdp, struct found *found) {
    for (int which = 0; which < OFFLOADS; which++) {
        if (card->is_on[which] && (which != OFFLOAD_TAGS || is_xdp)) {
            SAY(found, "%s: %s is on, so frames may come joined or without their tag: ethtool -K %s %s off\n", card->name,
                offload_names[which], card->name, offload_names[which]);
        }
    }
}

static void say_card(const char *name, const struct direction *from, struct found *found) {
    struct card card;
    if (!card_read(&card, name)) {
        return;
    }
    bool is_xdp = strcmp(from->io->name, "xdp") == 0;
    say_offloads(&card, is_xdp, found);
    if (!card.is_up) {
        SAY(found, "%s: it is down: ip link set %s up\n", name, name);
    } else if (!card.has_carrier) {
        SAY(found, "%s: no carrier: plug in the cable, or bring the other end up\n", name);
    }
    if (card.has_master) {
        SAY(found, "%s: it is in a bridge or bond too, so frames come twice: ip link set %s nomaster\n", name, name);
    }
    if (card.address[0] != '\0') {
        SAY(found, "%s: it has the address %s, for which the kernel answers: ip addr flush dev %s\n", name, card.address, name);
    }
    if (card.address_6[0] != '\0') {
        SAY(found, "%s: it has the address %s, for which the kernel answers: sysctl -w net.ipv6.conf.%s.disable_ipv6=1\n", name,
            card.address_6, name);
    }
    if (is_xdp && card.queues > from->input_count) {
        SAY(found, "%s: %" PRIu32 " queues, and %zu are read: ethtool -L %s combined %zu, and restart\n", name, card.queues,
            from->input_count, name, from->input_count);
    }
}

static void say_mtus(const struct wire *wire, struct found *found) {
    struct card left, right;
    const char *names[2] = { wire->both[0].from, wire->both[0].to };
    if (!card_read(&left, names[0]) || !card_read(&right, names[1]) || left.mtu == right.mtu) {
        return;
    }
    bool is_left = left.mtu > right.mtu;
    SAY(found, "%s: its mtu is %" PRIu32 " and the other's %" PRIu32 ", so long frames are lost: ip link set %s mtu %" PRIu32 "\n",
        names[!is_left], is_left ? left.mtu : right.mtu, is_left ? right.mtu : left.mtu, names[!is_left], is_left ? right.mtu : left.mtu);
}

/* What is read of a direction between two of its turns. */
struct seen {
    qtree_node_view root;
    struct lateness lateness;
    uint64_t too_long, needs;
};

static void look(struct direction *way, void *with) {
    struct seen *seen = with;
    qtree_node(&way->device, 0, &seen->root);
    seen->lateness = way->lateness;
    seen->too_long = count_of(&way->counts.lost[LOST_TOO_LONG]) + way->losses.by_cause[QTREE_LOST_TOO_LONG].packets;
    seen->needs = way->needs;
}

static void say_losses(struct direction *way, const struct seen *seen, struct found *found) {
    uint64_t none = count_of(&way->counts.lost[LOST_NO_BUFFER]), socket = way->io->dropped(way);
    if (seen->too_long > 0) {
        SAY(found,
            "%s: %" PRIu64
            " frames were longer than the mtu, as joined ones are: on the machine that sends them, ethtool -K CARD tso off gso off\n",
            way->from, seen->too_long);
    }
    if (none > 0) {
        SAY(found, "%s: %" PRIu64 " frames found no slot: start with -b %" PRIu64 ", or lower the limits of the tree\n", way->from, none,
            seen->needs * 2);
    }
    if (socket > 0) {
        SAY(found,
            "%s: the kernel lost %" PRIu64 " frames before they were read: start with -p 10, or -w 200 where processor time is short\n",
            way->from, socket);
    }
}

/* Whether the burst of a tbf at the root has room for what polls are late. */
static void say_burst(const struct wire *wire, const struct direction *way, const struct seen *seen, struct found *found) {
    uint64_t late = late_mostly(&seen->lateness);
    late = late < seen->lateness.greatest ? late : seen->lateness.greatest;
    uint64_t wanted = seen->root.kind == QTREE_TBF ? burst_for(seen->root.rate, late, wire->mtu) : 0;
    if (seen->root.burst < wanted) {
        SAY(found,
            "%s: polls are up to %.3f ms late, for which the burst of %" PRIu32 " bytes is too small: in %s write burst %" PRIu64
            ", and reload\n",
            way->to, (double)late / 1e6, seen->root.burst, wire->file, wanted);
    }
}

void answer_status(struct wire *wire, FILE *file) {
    struct found found = { file, 0 };
    fprintf(file, "%s: %s and %s are joined by %s, %s real-time priority\n", wire->name, wire->both[0].from, wire->both[0].to,
            wire->both[0].io->name, wire->is_real_time ? "with" : "without");
    for (int i = 0; i < 2; i++) {
        say_card(wire->both[i].from, &wire->both[i], &found);
    }
    say_mtus(wire, &found);
    for (int i = 0; i < 2; i++) {
        struct seen seen = { 0 };
        direction_ask(&wire->both[i], look, &seen);
        say_losses(&wire->both[i], &seen, &found);
        say_burst(wire, &wire->both[i], &seen, &found);
    }
    if (!wire->is_real_time) {
        SAY(&found, "the threads have no real-time priority: run as root or with CAP_SYS_NICE, and with -p 10\n");
    }
    fprintf(file, found.count == 0 ? "nothing is wrong\n" : "%d to be cured\n", found.count);
}
