/* What systemd hears, where it has started the program. */
#ifndef NOTIFY_H
#define NOTIFY_H

/* Sends lines such as READY=1. */
void notify(const char *lines);

/* The milliseconds in which it wants a sign of life; -1 if it wants none. */
int notify_period(void);

#endif
