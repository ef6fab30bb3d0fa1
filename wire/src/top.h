/* A live view of a running program in a terminal. */
#ifndef TOP_H
#define TOP_H

/* Draws anew each second, so many times, or until it is interrupted where that is 0; the status of the process. */
int top_run(const char *name, long times);

#endif
