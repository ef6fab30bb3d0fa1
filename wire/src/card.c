#include "card.h"

#include <arpa/inet.h>
#include <errno.h>
#include <ifaddrs.h>
#include <linux/ethtool.h>
#include <linux/if_packet.h>
#include <linux/sockios.h>
#include <stddef.h>
#include <string.h>
#include <sys/ioctl.h>
#include <sys/socket.h>
#include <sys/un.h>
#include <unistd.h>

const char *const offload_names[OFFLOADS] = { "gro", "lro", "tso", "gso", "rxvlan" };

/* The calls that get and set each; some are bits of one number. */
static const struct {
    uint32_t get, set, bit;
} offloads[OFFLOADS] = {
    { ETHTOOL_GGRO, ETHTOOL_SGRO, 1 }, { ETHTOOL_GFLAGS, ETHTOOL_SFLAGS, ETH_FLAG_LRO },    { ETHTOOL_GTSO, ETHTOOL_STSO, 1 },
    { ETHTOOL_GGSO, ETHTOOL_SGSO, 1 }, { ETHTOOL_GFLAGS, ETHTOOL_SFLAGS, ETH_FLAG_RXVLAN },
};

static bool ask(const char *name, unsigned long what, struct ifreq *wanted) {
    int fd = socket(AF_INET, SOCK_DGRAM | SOCK_CLOEXEC, 0);
    memset(wanted->ifr_name, 0, sizeof wanted->ifr_name);
    memcpy(wanted->ifr_name, name, strnlen(name, IFNAMSIZ - 1));
    bool is_done = fd >= 0 && ioctl(fd, what, wanted) == 0;
    int error = errno;
    if (fd >= 0) {
        close(fd);
    }
    errno = error;
    return is_done;
}

static bool ask_ethtool(const char *name, void *command) {
    struct ifreq wanted = { .ifr_data = command };
    return ask(name, SIOCETHTOOL, &wanted);
}

static bool is_on(const char *name, int which) {
    struct ethtool_value value = { offloads[which].get, 0 };
    return ask_ethtool(name, &value) && (value.data & offloads[which].bit) != 0;
}

static uint32_t queues_of(const char *name) {
    struct ethtool_channels channels = { .cmd = ETHTOOL_GCHANNELS };
    uint32_t count = ask_ethtool(name, &channels) ? channels.rx_count + channels.combined_count : 0;
    return count == 0 ? 1 : count;
}

/* An address of the kernel's own makes it answer for itself on a card that only passes frames on. */
static void read_addresses(struct card *card) {
    struct ifaddrs *all;
    if (getifaddrs(&all) != 0) {
        return;
    }
    for (const struct ifaddrs *it = all; it != NULL; it = it->ifa_next) {
        if (it->ifa_addr == NULL || strcmp(it->ifa_name, card->name) != 0) {
            continue;
        }
        if (it->ifa_addr->sa_family == AF_INET) {
            inet_ntop(AF_INET, &((const struct sockaddr_in *)(const void *)it->ifa_addr)->sin_addr, card->address, sizeof card->address);
        } else if (it->ifa_addr->sa_family == AF_INET6) {
            inet_ntop(AF_INET6, &((const struct sockaddr_in6 *)(const void *)it->ifa_addr)->sin6_addr, card->address_6,
                      sizeof card->address_6);
        }
    }
    freeifaddrs(all);
}

bool card_read(struct card *card, const char *name) {
    struct ifreq wanted;
    char path[64];
    *card = (struct card){ .queues = queues_of(name) };
    memcpy(card->name, name, strnlen(name, IFNAMSIZ - 1));
    if (!ask(name, SIOCGIFMTU, &wanted)) {
        return false;
    }
    card->mtu = (uint32_t)wanted.ifr_mtu;
    if (ask(name, SIOCGIFFLAGS, &wanted)) {
        card->is_up = (wanted.ifr_flags & IFF_UP) != 0;
        card->has_carrier = (wanted.ifr_flags & IFF_RUNNING) != 0;
    }
    for (int which = 0; which < OFFLOADS; which++) {
        card->is_on[which] = is_on(name, which);
    }
    snprintf(path, sizeof path, "/sys/class/net/%s/master", card->name);
    card->has_master = access(path, F_OK) == 0;
    read_addresses(card);
    return true;
}

static void turn_off(const char *name, int which) {
    struct ethtool_value value = { offloads[which].get, 0 };
    if (!ask_ethtool(name, &value) || (value.data & offloads[which].bit) == 0) {
        return;
    }
    value = (struct ethtool_value){ offloads[which].set, value.data & ~offloads[which].bit };
    ask_ethtool(name, &value);
    fprintf(stderr, "qtree-wire: %s: %s was on, and is %s\n", name, offload_names[which], is_on(name, which) ? "still on" : "off now");
}

/* The socket stays open until the program ends, and with it what it asks for. */
static bool take_all(const char *name) {
    int fd = socket(AF_PACKET, SOCK_RAW | SOCK_CLOEXEC, 0);
    struct packet_mreq all = { .mr_ifindex = (int)if_nametoindex(name), .mr_type = PACKET_MR_PROMISC };
    return fd >= 0 && setsockopt(fd, SOL_PACKET, PACKET_ADD_MEMBERSHIP, &all, sizeof all) == 0;
}

/* A socket's abstract name is that of the network namespace, as the card's is, and goes with the process. */
bool card_claim(const char *name) {
    struct sockaddr_un at = { .sun_family = AF_UNIX };
    int fd = socket(AF_UNIX, SOCK_DGRAM | SOCK_CLOEXEC, 0);
    int len = snprintf(at.sun_path + 1, sizeof at.sun_path - 1, "qtree-wire/%s", name);
    if (fd >= 0 && bind(fd, (struct sockaddr *)&at, (socklen_t)(offsetof(struct sockaddr_un, sun_path) + 1 + (size_t)len)) == 0) {
        return true;
    }
    fprintf(stderr, "qtree-wire: another qtree-wire has the card %s: %s\n", name, strerror(errno));
    return false;
}

bool card_prepare(const char *name, bool without_tags) {
    struct card card;
    struct ifreq wanted;
    if (!card_read(&card, name)) {
        return false;
    }
    for (int which = 0; which < OFFLOADS; which++) {
        if (which != OFFLOAD_TAGS || without_tags) {
            turn_off(name, which);
        }
    }
    if (!card.is_up && ask(name, SIOCGIFFLAGS, &wanted)) {
        wanted.ifr_flags = (short)(wanted.ifr_flags | IFF_UP);
        bool is_up = ask(name, SIOCSIFFLAGS, &wanted);
        fprintf(stderr, "qtree-wire: %s was down, and is %s\n", name, is_up ? "up now" : strerror(errno));
    }
    if (!take_all(name)) {
        fprintf(stderr, "qtree-wire: %s: %s; it needs root, or the capabilities NET_ADMIN and NET_RAW\n", name, strerror(errno));
        return false;
    }
    return true;
}
