/* What the rows of the longest calls share: one device, its clock, and a packet that arrives. */
#ifndef LONGEST_H
#define LONGEST_H

#include "qtree.h"

#include <stdbool.h>
#include <stddef.h>
#include <stdint.h>

extern qtree_device device;
extern uint64_t now;

/* Ends the program with the line of the source where what has to hold does not. */
#define MUST(holds) ((holds) ? (void)0 : fail(__FILE__, __LINE__, #holds))
_Noreturn void fail(const char *file, int line, const char *what);

void open_device(uint16_t mtu);
/* A line of tc, without "tc " and with the device's name in place of DEV. */
__attribute__((format(printf, 1, 2))) void tc(const char *format, ...);
/* A packet of this length whose flow and destination port are this number arrives, and has to be queued. */
void arrives(uint32_t flow, uint16_t len);
void arrives_with_prio(uint32_t flow, uint16_t len, uint8_t prio);
void sends(uint64_t packets);
/* The call of most rows. */
void poll_once(void);

/* A row is prepared, and then its call is made once. */
struct row {
    const char *name;
    const char *about;
    void (*prepare)(void);
    void (*call)(void);
};
extern const struct row poll_rows[], arrival_rows[], command_rows[];

#endif
