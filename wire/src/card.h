/* A network card: what it is set to, and what has to change for frames to pass as they are. */
#ifndef CARD_H
#define CARD_H

#include <net/if.h>
#include <stdbool.h>
#include <stdint.h>
#include <stdio.h>

/* Offloads by which frames of several packets, or without their tags, would be read. */
enum { OFFLOAD_GRO, OFFLOAD_LRO, OFFLOAD_TSO, OFFLOAD_GSO, OFFLOAD_TAGS, OFFLOADS };
extern const char *const offload_names[OFFLOADS]; /* as ethtool -K names them */

struct card {
    char name[IF_NAMESIZE];
    uint32_t mtu, queues;
    bool is_up, has_carrier, has_master, is_on[OFFLOADS];
    char address[64], address_6[64]; /* one of its addresses; empty if it has none */
};

/* Reads what a card is set to; false where there is none with this name. */
bool card_read(struct card *card, const char *name);

/* Takes the card for this process, as long as it runs; false, with the reason in a line, where another qtree-wire has it. */
bool card_claim(const char *name);

/* Turns offloads off, brings the card up, and has it take frames for all addresses as long as the program runs; says what it changed. That
 * of tags is turned off only if frames are read before the kernel could put them back. */
bool card_prepare(const char *name, bool without_tags);

#endif
