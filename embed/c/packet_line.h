/* Reads the lines by which packets arrive. */
#ifndef PACKET_LINE_H
#define PACKET_LINE_H

#include "reader.h"

/* Behind `pkt`: its length and its fields. The seed is that of the hash, where the line gives none. */
bool read_packet(struct reader *reader, uint32_t seed, qtree_packet *packet);
/* Behind `frame`: its length and its first bytes in hexadecimal digits. */
bool read_frame(struct reader *reader, uint32_t seed, qtree_packet *packet);

#endif
