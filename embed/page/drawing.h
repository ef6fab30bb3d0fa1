/* Draws runs as SVG: the page shows these pictures, and tools/simulate writes them. */
#ifndef DRAWING_H
#define DRAWING_H

#include "simulation.h"

/* Which rules of CSS give the parts of a picture their colours. */
extern const char drawing_style[];

/* The picture of one run, this many pixels wide, at scales that all runs share. */
void draw_run(const struct simulation *const runs[], size_t count, size_t index, unsigned width, struct text *text);
/* All runs side by side, as a file of its own. */
void draw_file(const struct simulation *const runs[], size_t count, unsigned width, struct text *text);

#endif
