#include "chart.h"

#include "simulation.h"
#include "units.h"

#include <inttypes.h>

enum { LEFT = 60, RIGHT = 8, UP = 20, ROW = 17 };
static const uint64_t SECOND = 1000000000;

static void write_words(struct text *text, const char *words, size_t len) {
    for (size_t at = 0; at < len; at++) {
        switch (words[at]) {
        case '<': text_format(text, "&lt;"); break;
        case '&': text_format(text, "&amp;"); break;
        default: text_bytes(text, &words[at], 1);
        }
    }
}

void chart_words(struct text *text, const char *words, unsigned most) {
    size_t len = 0;
    unsigned count = 0;
    for (; words[len] != '\0'; len++) {
        bool is_first = (words[len] & 0xc0) != 0x80; /* of the bytes of a character */
        if (is_first && ++count > most) {
            break;
        }
    }
    write_words(text, words, len);
}

/* A number of tenths of a pixel. */
static void write_tenths(struct text *text, uint64_t tenths) {
    text_format(text, tenths % 10 == 0 ? "%u" : "%u.%u", (unsigned)(tenths / 10), (unsigned)(tenths % 10));
}

static uint64_t x_of(const struct chart *chart, uint64_t at, uint64_t of) {
    return LEFT * 10 + (uint64_t)((wide)(chart->area.width - LEFT - RIGHT) * 10 * (wide)at / (wide)of);
}

/* A value above the chart stands at its upper end. */
static uint64_t y_of(const struct chart *chart, uint64_t value) {
    wide high = (wide)(chart->area.bottom - chart->area.top - UP) * 10;
    wide up = high * (wide)value * 100 / ((wide)chart->most * 106);
    return chart->area.bottom * 10 - (uint64_t)(up > high ? high : up);
}

/* The step of a scale: 1, 2 or 5 times a power of ten, so that so many steps reach the most. */
static uint64_t step_of(uint64_t most, uint64_t steps) {
    static const uint64_t all[] = { 1, 2, 5 };
    for (uint64_t ten = 1;; ten *= 10) {
        for (size_t at = 0; at < 3; at++) {
            if (all[at] * ten * steps >= most) {
                return all[at] * ten;
            }
        }
    }
}

static void words_at(struct text *text, const char *kind, uint64_t x, uint64_t y, const char *anchor) {
    text_format(text, "<text class=\"%s\" text-anchor=\"%s\" x=\"", kind, anchor);
    write_tenths(text, x);
    text_format(text, "\" y=\"");
    write_tenths(text, y);
    text_format(text, "\">");
}

static void time_grid(struct chart *chart, bool has_words) {
    uint64_t step = step_of(chart->last, chart->area.width > 600 ? 10 : 5);
    for (uint64_t at = 0; at <= chart->last; at += step) {
        uint64_t x = x_of(chart, at, chart->last);
        text_format(chart->text, "<path class=\"grid\" d=\"M");
        write_tenths(chart->text, x);
        text_format(chart->text, " %uV%u\"/>", chart->area.top + UP, chart->area.bottom);
        if (has_words) {
            words_at(chart->text, "tick", x, (chart->area.bottom + 13) * UINT64_C(10), at + step > chart->last ? "end" : "middle");
            text_number(chart->text, at, SECOND, 2);
            text_format(chart->text, at == 0 ? " s</text>\n" : "</text>\n");
        }
    }
}

static void title_of(struct chart *chart, const char *title) {
    words_at(chart->text, "head", 0, (chart->area.top + 12) * UINT64_C(10), "start");
    text_format(chart->text, "%s</text>\n", title);
}

struct chart chart_begins(struct text *text, const char *title, uint64_t last, uint64_t most, uint64_t unit, struct area area) {
    struct chart chart = { .text = text, .area = area, .last = last, .most = most, .unit = unit };
    uint64_t step = step_of(most, area.bottom - area.top > 160 ? 5 : 3);
    title_of(&chart, title);
    for (uint64_t value = 0; value <= most + most / 20; value += step) {
        uint64_t y = y_of(&chart, value);
        text_format(text, "<path class=\"grid\" d=\"M%u ", (unsigned)LEFT);
        write_tenths(text, y);
        text_format(text, "H%u\"/>", area.width - RIGHT);
        words_at(text, "tick", (LEFT - 5) * 10, y + 40, "end");
        text_number(text, value, unit, 3);
        text_format(text, "</text>\n");
    }
    time_grid(&chart, false);
    return chart;
}

static void colour(struct text *text, int group) {
    if (group >= 0) {
        text_format(text, " c%u", (unsigned)group);
    }
}

void path_begins(struct chart *chart, const char *kind, int group) {
    text_format(chart->text, "<path class=\"%s", kind);
    colour(chart->text, group);
    text_format(chart->text, "\" d=\"");
}

void path_to(struct chart *chart, bool is_apart, size_t half_bins, uint64_t value) {
    text_format(chart->text, is_apart ? "M" : "L");
    write_tenths(chart->text, x_of(chart, half_bins, 2 * BINS));
    text_format(chart->text, " ");
    write_tenths(chart->text, y_of(chart, value));
}

void path_ends(struct chart *chart) { text_format(chart->text, "\"/>\n"); }

/* A height for words near this one where none stand yet. */
static unsigned free_height(struct chart *chart, unsigned y) {
    for (size_t at = 0; at < chart->label_count; at++) {
        unsigned there = chart->labels[at];
        if (y + 11 > there && there + 11 > y) {
            y = there + 12;
            at = SIZE_MAX;
        }
    }
    if (chart->label_count < sizeof chart->labels / sizeof chart->labels[0]) {
        chart->labels[chart->label_count++] = y;
    }
    return y;
}

void chart_promise(struct chart *chart, uint64_t value, int group, const struct text *words) {
    struct text *text = chart->text;
    bool is_above = value > chart->most + chart->most / 20;
    unsigned y = is_above ? chart->area.top + UP + 10 : (unsigned)(y_of(chart, value) / 10) - 4;
    if (!is_above) {
        path_begins(chart, "promise", group);
        path_to(chart, true, 0, value);
        path_to(chart, false, 2 * BINS, value);
        path_ends(chart);
    }
    text_format(text, "<g class=\"q");
    colour(text, group);
    text_format(text, "\">");
    words_at(text, "own halo", (chart->area.width - RIGHT - 4) * UINT64_C(10), free_height(chart, y) * UINT64_C(10), "end");
    write_words(text, (const char *)words->bytes, words->len);
    text_format(text, is_above ? " &#8593;</text></g>\n" : "</text></g>\n");
}

struct chart rows_begin(struct text *text, const char *title, uint64_t last, size_t rows, struct area area) {
    struct chart chart = { .text = text, .area = area, .last = last };
    chart.area.bottom = area.top + UP + ROW * (unsigned)rows;
    title_of(&chart, title);
    time_grid(&chart, true);
    return chart;
}

void row_name(struct chart *chart, const char *name, int group, size_t row) {
    unsigned base = chart->area.top + UP + ROW * ((unsigned)row + 1);
    text_format(chart->text, "<g class=\"q");
    colour(chart->text, group);
    text_format(chart->text, "\">");
    words_at(chart->text, "own", (LEFT - 5) * 10, (base - 4) * UINT64_C(10), "end");
    chart_words(chart->text, name, 8);
    text_format(chart->text, "</text></g><path class=\"grid\" d=\"M%u %uH%u\"/>\n", (unsigned)LEFT, base, chart->area.width - RIGHT);
}

void row_bar(struct chart *chart, int group, size_t row, size_t bin, uint32_t count, bool is_filled) {
    unsigned base = chart->area.top + UP + ROW * ((unsigned)row + 1), height = 5, width = chart->area.width / BINS + 1;
    for (; count > 1 && height < 14; count /= 2) {
        height += 2;
    }
    path_begins(chart, is_filled ? "fill" : "hollow", group);
    text_format(chart->text, "M");
    write_tenths(chart->text, x_of(chart, bin, BINS));
    text_format(chart->text, " %uh%uv-%uh-%uz", base, width, is_filled ? height : 7, width);
    path_ends(chart);
}
