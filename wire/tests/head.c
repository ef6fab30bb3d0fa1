/* Where the IP header is found, by frames as their standards write them. */
#include "head.h"

#include <stdio.h>
#include <string.h>

#define MACS "\x02\0\0\0\0\x02\x02\0\0\0\0\x01"
#define IP4 "\x45\0\0\x1c"
#define LABEL "\x00\x02\x00\x40"
#define IP6 "\x60\0\0\0"
#define CASE(name, at, bytes)                                                                                                              \
    { name, at, (const uint8_t *)(bytes), sizeof(bytes) - 1 }

static const struct {
    const char *name;
    size_t at;
    const uint8_t *frame;
    size_t len;
} cases[] = {
    CASE("IPv4", 14, MACS "\x08\x00" IP4),
    CASE("IPv6", 14, MACS "\x86\xdd" IP6),
    CASE("ARP", 0, MACS "\x08\x06\0\1\x08\0"),
    CASE("802.1Q", 18, MACS "\x81\x00\x00\x05\x08\x00" IP4),
    CASE("802.1ad and 802.1Q", 22, MACS "\x88\xa8\x00\x07\x81\x00\x00\x05\x86\xdd" IP6),
    CASE("the older outer tag", 22, MACS "\x91\x00\x00\x07\x81\x00\x00\x05\x08\x00" IP4),
    CASE("three tags", 26, MACS "\x88\xa8\x00\x07\x81\x00\x00\x05\x81\x00\x00\x06\x08\x00" IP4),
    CASE("four tags", 0, MACS "\x88\xa8\x00\x07\x88\xa8\x00\x07\x81\x00\x00\x05\x81\x00\x00\x06\x08\x00" IP4),
    CASE("a PPPoE session with IPv4", 22, MACS "\x88\x64\x11\x00\x00\x01\x00\x1e\x00\x21" IP4),
    CASE("a PPPoE session with IPv6", 22, MACS "\x88\x64\x11\x00\x00\x01\x00\x06\x00\x57" IP6),
    CASE("a PPPoE session with LCP", 0, MACS "\x88\x64\x11\x00\x00\x01\x00\x0a\xc0\x21\x01\x01\x00\x08"),
    CASE("PPPoE discovery, an offer", 0, MACS "\x88\x63\x11\x07\x00\x00\x00\x04\x01\x01\x00\x00"),
    CASE("a PPPoE session of another version", 0, MACS "\x88\x64\x21\x00\x00\x01\x00\x1e\x00\x21" IP4),
    CASE("a PPPoE session with a code", 0, MACS "\x88\x64\x11\xa7\x00\x01\x00\x1e\x00\x21" IP4),
    CASE("a PPPoE session behind a tag", 26, MACS "\x81\x00\x00\x07\x88\x64\x11\x00\x00\x01\x00\x1e\x00\x21" IP4),
    CASE("a PPPoE session behind two tags", 30, MACS "\x88\xa8\x00\x02\x81\x00\x00\x07\x88\x64\x11\x00\x00\x01\x00\x1e\x00\x57" IP6),
    CASE("a PPPoE session that is cut", 0, MACS "\x88\x64\x11\x00\x00\x01\x00\x1e\x00"),
    CASE("one label of MPLS", 18, MACS "\x88\x47\x00\x01\x01\x40" IP4),
    CASE("three labels of MPLS", 26, MACS "\x88\x47\x00\x01\x00\x40\x00\x02\x00\x40\x00\x03\x01\x40" IP6),
    CASE("eight labels of MPLS", 46, MACS "\x88\x47" LABEL LABEL LABEL LABEL LABEL LABEL LABEL "\x00\x03\x01\x40" IP4),
    CASE("nine labels of MPLS", 0, MACS "\x88\x47" LABEL LABEL LABEL LABEL LABEL LABEL LABEL LABEL "\x00\x03\x01\x40" IP4),
    CASE("MPLS for many, with IPv6", 18, MACS "\x88\x48\x00\x01\x01\x40" IP6),
    CASE("MPLS with an Ethernet frame in it", 0, MACS "\x88\x47\x00\x01\x01\x40\x00\x00\x00\x00" MACS),
    CASE("labels without an end", 0, MACS "\x88\x47\x00\x01\x00\x40\x00\x02\x00\x40"),
    CASE("MPLS behind a tag", 22, MACS "\x81\x00\x00\x05\x88\x47\x00\x01\x01\x40" IP4),
    CASE("a label and nothing behind it", 0, MACS "\x88\x47\x00\x01\x01\x40"),
    CASE("only a type", 14, MACS "\x08\x00"),
    CASE("half a type", 0, MACS "\x08"),
    CASE("a tag and nothing behind it", 0, MACS "\x81\x00\x00\x05"),
    CASE("802.3 with a length", 0, MACS "\x00\x26\x42\x42\x03"),
    CASE("nothing", 0, ""),
};

/* Each beginning of a frame is asked too, in memory of just its length, so that a sanitizer sees a read behind it. */
static int beginnings(void) {
    int wrong = 0;
    for (size_t i = 0; i < sizeof cases / sizeof cases[0]; i++) {
        for (size_t len = 0; len <= cases[i].len; len++) {
            uint8_t copy[len + 1];
            memcpy(copy + 1, cases[i].frame, len);
            size_t at = head_ip_at(copy + 1, len);
            wrong += at != 0 && at > len;
        }
    }
    return wrong;
}

int main(void) {
    int wrong = 0;
    for (size_t i = 0; i < sizeof cases / sizeof cases[0]; i++) {
        size_t at = head_ip_at(cases[i].frame, cases[i].len);
        if (at != cases[i].at) {
            printf("%s: %zu, and not %zu\n", cases[i].name, at, cases[i].at);
            wrong++;
        }
    }
    wrong += beginnings();
    printf("%zu heads, %d wrong\n", sizeof cases / sizeof cases[0], wrong);
    return wrong != 0;
}
