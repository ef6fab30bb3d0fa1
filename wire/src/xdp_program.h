/* The program in the kernel that hands the frames of a card to sockets. */
#ifndef XDP_PROGRAM_H
#define XDP_PROGRAM_H

#include <stdbool.h>
#include <stdint.h>

struct xdp_program {
    int card, fd, sockets; /* the card's index, the program, and its sockets by their queues */
    uint32_t flags;
};

/* Attaches it to a card, in place of one that a dead process left. Frames without a socket go straight to the other card. */
bool xdp_program_attach(struct xdp_program *program, const char *card, const char *other);
bool xdp_program_add(struct xdp_program *program, uint32_t queue, int socket);
/* With keeps_passing it stays, and passes all frames to the other card once the sockets are closed. */
void xdp_program_detach(struct xdp_program *program, bool keeps_passing);

#endif
