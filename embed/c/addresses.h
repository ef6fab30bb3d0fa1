/* Reads addresses and protocols of IP. */
#ifndef ADDRESSES_H
#define ADDRESSES_H

#include "reader.h"

struct address {
    uint64_t high;
    uint64_t low; /* an address of IPv4 is in the low 32 bits */
    uint8_t family; /* 0 where there is none, 4 or 6 */
};

bool read_address(struct reader *reader, struct word word, struct address *address);
/* A protocol above IP, by its name or its number in hexadecimal digits. */
bool read_protocol(struct reader *reader, struct word word, uint8_t *proto);

#endif
