/* Writes the files of a new line. */
#ifndef LINE_H
#define LINE_H

/* NAME LEFT RIGHT TO_LEFT TO_RIGHT, such as shop lan0 wan0 95mbit 19mbit: writes NAME.conf and NAME.tc into the folder, with the burst that
 * this machine needs; the status of the process. It changes no file that is there. */
int line_new(const char *folder, char **words);

#endif
