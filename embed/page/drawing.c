#include "drawing.h"

#include "chart.h"
#include "report.h"
#include "units.h"

#include <inttypes.h>
#include <string.h>

static const uint64_t MS = 1000000, MBIT = 1000000, KILO = 1000;
static const wide BYTE = 8000000000;
enum { GAP = 10, TILE = 140, SMOOTH = 2, LEFT_CELL = 52, LEAST_FOR_CELLS = 680 };

const char drawing_style[] =
    ".qtree{color:#1b2330;font:11px system-ui,'Liberation Sans',sans-serif}.qtree text{fill:#56616f}"
    ".qtree .head{fill:#1b2330;font-weight:600;font-size:12px}.qtree .title{fill:#1b2330;font-weight:700;font-size:16px}"
    ".qtree .big{font-weight:650;font-size:21px}.qtree .grid{stroke:#e3e7ed;fill:none}"
    ".qtree .line{fill:none;stroke:currentColor;stroke-width:1.7;stroke-linejoin:round}.qtree .area{fill:currentColor;opacity:.2}"
    ".qtree .fill,.qtree text.own{fill:currentColor}.qtree .hollow{fill:none;stroke:currentColor}"
    ".qtree .w1{stroke-width:2.8}.qtree .w2{stroke-width:4}"
    ".qtree .promise{fill:none;stroke:currentColor;stroke-width:1.5;stroke-dasharray:6 4}"
    ".qtree .latest{fill:none;stroke:currentColor;stroke-width:1;stroke-dasharray:1.5 2.5}"
    ".qtree .halo{paint-order:stroke;stroke:#fff;stroke-width:4px;stroke-linejoin:round}"
    ".c0{color:#0072b2}.c1{color:#b84f00}.c2{color:#00795a}.c3{color:#a8437e}.c4{color:#4656c0}.c5{color:#8a6200}.c6{color:#555}.c7{color:#"
    "5d7500}";

struct scales {
    uint64_t delay, rate, queue;
};

static size_t bins_done(const struct simulation *sim) {
    size_t done = (size_t)(sim->now / (sim->mix->last / BINS));
    return done < BINS ? done : BINS;
}

/* Bits a second of a group, over a few bins around one. */
static uint64_t rate_at(const struct simulation *sim, size_t group, size_t bin) {
    size_t first = bin < SMOOTH ? 0 : bin - SMOOTH, done = bins_done(sim), end = bin + SMOOTH + 1 < done ? bin + SMOOTH + 1 : done;
    uint64_t bytes = 0;
    for (size_t at = first; at < end; at++) {
        bytes += sim->groups[group].bins[at].bytes;
    }
    return end <= first ? 0 : (uint64_t)((wide)bytes * BYTE / (wide)((end - first) * (sim->mix->last / BINS)));
}

static uint64_t greater(uint64_t a, uint64_t b) { return a > b ? a : b; }

static void scale_by(const struct simulation *sim, struct scales *scales) {
    scales->rate = greater(scales->rate, sim->rate);
    for (size_t group = 0; group < sim->mix->group_count; group++) {
        for (size_t bin = 0; bin < BINS; bin++) {
            scales->delay = greater(scales->delay, sim->groups[group].bins[bin].longest);
            scales->queue = greater(scales->queue, sim->groups[group].bins[bin].queued);
            scales->rate = greater(scales->rate, bin < bins_done(sim) ? rate_at(sim, group, bin) : 0);
        }
    }
}

/* The scales that all runs share. Room for a promise is made where it is not much more than what was measured. */
static struct scales scales_of(const struct simulation *const runs[], size_t count) {
    struct scales scales = { 0, 0, 0 };
    for (size_t run = 0; run < count; run++) {
        scale_by(runs[run], &scales);
    }
    uint64_t most = scales.delay + scales.delay / 2;
    for (size_t run = 0; run < count; run++) {
        for (size_t at = 0; at < runs[run]->place_count; at++) {
            const struct place *it = &runs[run]->places[at];
            if (it->is_used && it->has_worst && it->worst.ns <= most) {
                scales.delay = greater(scales.delay, it->worst.ns);
            }
        }
    }
    return (struct scales){ greater(scales.delay, 1), greater(scales.rate, 1), greater(scales.queue, 1) };
}

/* The group whose packets alone go through a place, so that its promise has their colour; or -1. */
static int group_of_place(const struct simulation *sim, size_t place) {
    int found = -1;
    for (size_t flow = 0; flow < sim->mix->flow_count; flow++) {
        if (sim->flows[flow].leaf >= 0 && place_is_in(sim, sim->flows[flow].leaf, (int)place)) {
            int group = (int)sim->mix->group_of[flow];
            if (found >= 0 && found != group) {
                return -1;
            }
            found = group;
        }
    }
    return found;
}

/* Whether a place with this promise is drawn. */
static bool is_drawn(const struct simulation *sim, const struct place *it, bool is_share) {
    bool is_there = is_share ? it->has_service && it->service.rate != 0 : it->has_worst && it->worst.ns != UINT64_MAX;
    return it->is_used && is_there && sim->late_most <= it->late;
}

static bool is_any_drawn(const struct simulation *sim, bool is_share) {
    for (size_t at = 0; at < sim->place_count; at++) {
        if (is_drawn(sim, &sim->places[at], is_share)) {
            return true;
        }
    }
    return false;
}

/* A promise as a line over the whole time, with its words. */
static void promise_line(struct chart *chart, const struct simulation *sim, size_t place, uint64_t value, const char *words) {
    struct text label = NO_TEXT;
    report_place(&sim->places[place], &label);
    text_format(&label, ": ");
    text_number(&label, value, chart->unit, 3);
    text_format(&label, " %s", words);
    chart_promise(chart, value, group_of_place(sim, place), &label);
    text_free(&label);
}

/* The lines of the first groups are wider, so that they are seen behind others. */
static const char *line_of(const struct simulation *sim, size_t group) {
    static const char *const kinds[] = { "line", "line w1", "line w2" };
    size_t behind = sim->mix->group_count - 1 - group;
    return kinds[behind < 2 ? behind : 2];
}

/* A line through the bins that a group has something in. */
static void delay_line(struct chart *chart, const struct simulation *sim, size_t group, bool is_latest) {
    const struct bin *bins = sim->groups[group].bins;
    bool is_apart = true;
    path_begins(chart, is_latest ? "latest" : line_of(sim, group), (int)group);
    for (size_t at = 0; at <= bins_done(sim) && at < BINS; at++) {
        bool is_there = is_latest ? bins[at].latest > 0 : bins[at].count > 0;
        if (is_there) {
            path_to(chart, is_apart, 2 * at + 1, is_latest ? bins[at].latest : bins[at].delays / bins[at].count);
        }
        is_apart = !is_there && (is_apart || sim->mix->groups[group].sends == SENDS_TCP);
    }
    path_ends(chart);
}

/* From the shortest to the longest delay of each bin. */
static void delay_band(struct chart *chart, const struct simulation *sim, size_t group) {
    const struct bin *bins = sim->groups[group].bins;
    path_begins(chart, "area", (int)group);
    for (size_t at = 0; at < BINS; at++) {
        if (bins[at].count > 0 && bins[at].longest > bins[at].shortest) {
            path_to(chart, true, 2 * at, bins[at].shortest);
            path_to(chart, false, 2 * at, bins[at].longest);
            path_to(chart, false, 2 * at + 2, bins[at].longest);
            path_to(chart, false, 2 * at + 2, bins[at].shortest);
        }
    }
    path_ends(chart);
}

static void draw_delays(struct text *text, const struct simulation *sim, const struct scales *scales, struct area area) {
    const char *title = is_any_drawn(sim, false) ? "Delay, ms; dotted: promised on arrival" : "Delay, ms";
    struct chart chart = chart_begins(text, title, sim->mix->last, scales->delay, MS, area);
    size_t count = sim->mix->group_count;
    for (size_t group = 0; group < count; group++) {
        delay_band(&chart, sim, group);
    }
    for (size_t group = 0; group < count; group++) {
        delay_line(&chart, sim, group, true);
        delay_line(&chart, sim, group, false);
    }
    for (size_t at = 0; at < sim->place_count; at++) {
        const struct place *it = &sim->places[at];
        if (is_drawn(sim, it, false)) {
            promise_line(&chart, sim, at, it->worst.ns, "ms at most");
        }
    }
}

static void draw_shares(struct text *text, const struct simulation *sim, const struct scales *scales, struct area area) {
    const char *title = is_any_drawn(sim, true) ? "Share of the link, Mbit/s; dashed: promised" : "Share of the link, Mbit/s";
    struct chart chart = chart_begins(text, title, sim->mix->last, scales->rate, MBIT, area);
    for (size_t group = 0; group < sim->mix->group_count; group++) {
        path_begins(&chart, "line", (int)group);
        for (size_t bin = 0; bin + SMOOTH < bins_done(sim); bin++) {
            path_to(&chart, bin == 0, 2 * bin + 1, rate_at(sim, group, bin));
        }
        path_ends(&chart);
    }
    for (size_t at = 0; at < sim->place_count; at++) {
        const struct place *it = &sim->places[at];
        if (is_drawn(sim, it, true)) {
            promise_line(&chart, sim, at, it->service.rate, "while it has packets");
        }
    }
}

static void draw_queues(struct text *text, const struct simulation *sim, const struct scales *scales, struct area area) {
    struct chart chart = chart_begins(text, "Queued, KB", sim->mix->last, scales->queue, KILO, area);
    for (size_t group = 0; group < sim->mix->group_count; group++) {
        path_begins(&chart, "line", (int)group);
        for (size_t bin = 0; bin < bins_done(sim); bin++) {
            path_to(&chart, bin == 0, 2 * bin + 1, sim->groups[group].bins[bin].queued);
        }
        path_ends(&chart);
    }
}

/* A row of bars for each group: filled where packets were lost, and hollow where they were only marked. */
static void draw_losses(struct text *text, const struct simulation *sim, struct area area) {
    struct chart chart = rows_begin(text, "Lost, and hollow: marked", sim->mix->last, sim->mix->group_count, area);
    for (size_t group = 0; group < sim->mix->group_count; group++) {
        row_name(&chart, sim->mix->groups[group].name, (int)group, group);
        for (size_t bin = 0; bin < BINS; bin++) {
            const struct bin *it = &sim->groups[group].bins[bin];
            if (it->lost + it->marked > 0) {
                row_bar(&chart, (int)group, group, bin, it->lost > 0 ? it->lost : it->marked, it->lost > 0);
            }
        }
    }
}

/* Each group's name, and within which time 99 of 100 of its packets left, in large figures. Answers the height. */
static unsigned draw_figures(struct text *text, const struct simulation *sim, unsigned top, unsigned width) {
    unsigned x = 0, y = top, tile = TILE;
    for (size_t at = 0; at < sim->mix->group_count; at++, x += tile) {
        if (x + tile > width) {
            x = 0;
            y += 46;
        }
        text_format(text, "<g class=\"c%u\"><path class=\"fill\" d=\"M%u %uh5v40h-5z\"/><text class=\"own\" x=\"%u\" y=\"%u\">",
                    (unsigned)at, x, y, x + 12, y + 12);
        chart_words(text, sim->mix->groups[at].name, 11);
        text_format(text, "<tspan opacity=\".8\"> 99 %% in</tspan></text><text class=\"own big\" x=\"%u\" y=\"%u\">", x + 12, y + 34);
        if (sim->groups[at].sent > 0) {
            text_number(text, measured_within(&sim->groups[at], 9900), MS, 3);
        }
        text_format(text, sim->groups[at].sent > 0 ? " ms</text></g>\n" : "-</text></g>\n");
    }
    return y + 46 - top;
}

static unsigned height_of(const struct simulation *sim, unsigned width) {
    unsigned in_row = width / TILE, rows = ((unsigned)sim->mix->group_count + in_row - 1) / in_row;
    return rows * 46 + GAP + 208 + GAP + 130 + GAP + 92 + GAP + 40 + 17 * (unsigned)sim->mix->group_count;
}

static void draw_parts(const struct simulation *sim, const struct scales *scales, unsigned top, unsigned width, struct text *text) {
    top += draw_figures(text, sim, top, width) + GAP;
    draw_delays(text, sim, scales, (struct area){ width, top, top + 208 });
    draw_shares(text, sim, scales, (struct area){ width, top + 208 + GAP, top + 338 + GAP });
    draw_queues(text, sim, scales, (struct area){ width, top + 338 + 2 * GAP, top + 430 + 2 * GAP });
    top += 430 + 3 * GAP;
    draw_losses(text, sim, (struct area){ width, top, top + 40 + 17 * (unsigned)sim->mix->group_count });
}

void draw_run(const struct simulation *const runs[], size_t count, size_t index, unsigned width, struct text *text) {
    struct scales scales = scales_of(runs, count);
    text_format(text, "<svg class=\"qtree\" viewBox=\"0 0 %u %u\" width=\"%u\" height=\"%u\" role=\"img\" aria-label=\"", width,
                height_of(runs[index], width), width, height_of(runs[index], width));
    text_format(text, "Delay, share of the link, queue and losses over time; the tables below have the figures\">\n");
    draw_parts(runs[index], &scales, 0, width, text);
    text_format(text, "</svg>\n");
}

/* Writes a cell of a table, and answers what is behind it. */
static const char *draw_cell(struct text *text, const char *at, unsigned x, unsigned y) {
    size_t len = strcspn(at, "\t\n");
    text_format(text, "<text x=\"%u\" y=\"%u\">", x, y);
    text_bytes(text, at, len);
    text_format(text, "</text>");
    return at + len + 1;
}

/* Each promise with a tick or a cross, and beside it what was measured. */
static unsigned draw_promises(const struct simulation *sim, unsigned top, unsigned width, struct text *text) {
    struct text rows = NO_TEXT;
    unsigned y = top + 16;
    report_promises(sim, &rows);
    if (rows.len > 0) {
        const char *at = draw_cell(text, "promised by the device\tmeasured\n", LEFT_CELL, y);
        draw_cell(text, at, width * 6 / 10, y);
        y += 16;
    }
    text_bytes(&rows, "", 1);
    for (const char *at = (const char *)rows.bytes; !rows.is_short && at[0] != '\0'; y += 16) {
        text_format(text, "<text y=\"%u\" class=\"own %s</text>", y,
                    at[0] == 'k'   ? "c2\">&#10003;"
                    : at[0] == 'b' ? "c1\">&#10007;"
                                   : "\">-");
        at = draw_cell(text, at + strcspn(at, "\t") + 1, 16, y);
        at = draw_cell(text, at, LEFT_CELL, y);
        at = draw_cell(text, at, width * 6 / 10, y);
        text_format(text, "\n");
    }
    text_free(&rows);
    return y - top;
}

void draw_file(const struct simulation *const runs[], size_t count, unsigned width, struct text *text) {
    struct scales scales = scales_of(runs, count);
    struct text body = NO_TEXT;
    unsigned edge = 12, top = 36 + height_of(runs[0], width), height = top, whole = (unsigned)count * (width + 2 * edge);
    for (size_t run = 0; run < count; run++) {
        text_format(&body, "<g transform=\"translate(%u 0)\">\n<text class=\"title\" y=\"22\">", edge + (unsigned)run * (width + 2 * edge));
        chart_words(&body, runs[run]->tree->name, NAME);
        text_format(&body, "</text>\n");
        draw_parts(runs[run], &scales, 36, width, &body);
        unsigned low = top + (width < LEAST_FOR_CELLS ? 0 : draw_promises(runs[run], top, width, &body));
        height = low > height ? low : height;
        text_format(&body, "</g>\n");
    }
    text_format(text,
                "<svg xmlns=\"http://www.w3.org/2000/svg\" class=\"qtree\" viewBox=\"0 0 %u %u\" width=\"%u\" height=\"%u\">\n<style>",
                whole, height, whole, height);
    text_bytes(text, drawing_style, strlen(drawing_style));
    text_format(text, "</style>\n<rect width=\"%u\" height=\"%u\" fill=\"#fff\"/>\n", whole, height);
    text_bytes(text, body.bytes, body.len);
    text_format(text, "</svg>\n");
    text->is_short = text->is_short || body.is_short;
    text_free(&body);
}
