/* One chart of a picture: a title, a grid, and lines over time. */
#ifndef CHART_H
#define CHART_H

#include "../c/text.h"

/* Where a chart stands, in pixels. */
struct area {
    unsigned width, top, bottom;
};

struct chart {
    struct text *text;
    struct area area;
    uint64_t last, most, unit;
    unsigned labels[16]; /* where words stand */
    size_t label_count;
};

/* Writes the title and the grid of a chart whose greatest value is most, with numbers in this unit. */
struct chart chart_begins(struct text *text, const char *title, uint64_t last, uint64_t most, uint64_t unit, struct area area);
/* A path in the colour of a group. Its points are counted in half bins; each after the first goes on with a line, unless it is apart. */
void path_begins(struct chart *chart, const char *kind, int group);
void path_to(struct chart *chart, bool is_apart, size_t half_bins, uint64_t value);
void path_ends(struct chart *chart);
/* A dashed line over the whole time with words; a value above the chart has its words beside the title. */
void chart_promise(struct chart *chart, uint64_t value, int group, const struct text *words);
/* The first characters of a name, as XML has them. */
void chart_words(struct text *text, const char *words, unsigned most);

/* A chart of rows with bars in place of lines. */
struct chart rows_begin(struct text *text, const char *title, uint64_t last, size_t rows, struct area area);
void row_name(struct chart *chart, const char *name, int group, size_t row);
void row_bar(struct chart *chart, int group, size_t row, size_t bin, uint32_t count, bool is_filled);

#endif
