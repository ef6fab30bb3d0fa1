/* The lines of a file that are for one card. */
#ifndef LINES_H
#define LINES_H

#include <stdbool.h>
#include <stdio.h>

/* The file's text, to be freed; or none, with the reason in a line. */
char *lines_read(const char *file, FILE *says);

/* The text with a blank line in place of each line that is for another card, so that numbers of lines stay right; to be freed. */
char *lines_for(const char *text, const char *card);

/* Whether each line has `dev` with one of both cards; says which have not. */
bool lines_fit(const char *file, const char *text, const char *left, const char *right, FILE *says);

/* The names behind `dev`, in their order, up to three; how many. Each has 64 bytes. */
int lines_cards(const char *text, char names[3][64]);

#endif
