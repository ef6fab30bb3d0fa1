/* Where the IP header of a frame begins. */
#ifndef HEAD_H
#define HEAD_H

#include <stddef.h>
#include <stdint.h>

/* The index of the first byte of the IP header in an Ethernet frame, behind up to three VLAN tags (802.1Q, 802.1ad), the header of a PPPoE
 * session (RFC 2516), or labels of MPLS; 0 if no IP header is found. Whether a whole header follows is not checked. */
size_t head_ip_at(const uint8_t *frame, size_t len);

#endif
