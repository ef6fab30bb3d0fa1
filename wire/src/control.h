/* The socket by which a running program is asked. */
#ifndef CONTROL_H
#define CONTROL_H

#include "wire.h"

enum { CONTROL_PATH = 108 };

/* The path of a name's socket; a name with a slash is a path. False where it is too long. */
bool control_path(char path[CONTROL_PATH], const char *name);

/* Listens there, where no other program does; -1, with the reason in a line. */
int control_listen(const char *name);

/* Answers one client. */
void control_answer(struct wire *wire, int listener);

/* Asks the program with this name, and prints what it answers; the status of the process. */
int control_ask(const char *name, const char *asked);

/* The answer, to be freed; none, with the reason in a line, where there is none. */
char *control_read(const char *name, const char *asked);

void control_close(const char *name, int listener);

#endif
