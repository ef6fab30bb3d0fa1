#include "report.h"

#include "units.h"

#include <inttypes.h>

static const uint64_t US = 1000, MS = 1000000, MBIT = 1000000, BILLION = 1000000000;
static const wide BYTE = 8000000000;

void report_place(const struct place *place, struct text *text) {
    static const char digits[] = "0123456789abcdef";
    const uint16_t numbers[] = { place->major, place->minor };
    if (place->place == QTREE_ROOT) {
        text_format(text, "root");
        return;
    }
    for (size_t at = 0; at < 2; at++) {
        unsigned shift = 12;
        text_bytes(text, ":", at);
        for (; shift > 0 && numbers[at] >> shift == 0; shift -= 4) {
        }
        for (;; shift -= 4) {
            text_bytes(text, &digits[numbers[at] >> shift & 15], 1);
            if (shift == 0) {
                break;
            }
        }
    }
}

static void cell(struct text *text, uint64_t value, uint64_t unit, unsigned digits) {
    text_format(text, "\t");
    text_number(text, value, unit, digits);
}

static void losses(const struct measured *group, struct text *text) {
    const char *between = "\t";
    for (qtree_code cause = 1; cause <= QTREE_LOST_MOST; cause++) {
        if (group->losses[cause] > 0) {
            text_format(text, "%s", between);
            text_number(text, group->losses[cause], 1, 0);
            text_format(text, " %s", qtree_code_name(cause));
            between = ", ";
        }
    }
    text_format(text, "%s", between[0] == '\t' ? "\t0" : "");
}

void report_flows(const struct simulation *sim, struct text *text) {
    text_format(text, "flow\tpackets\tMbit/s\tms, half\t99 %%\tlongest\tmarked\tlost\n");
    for (size_t at = 0; at < sim->mix->group_count; at++) {
        const struct group *it = &sim->mix->groups[at];
        const struct measured *measured = &sim->groups[at];
        uint64_t stop = it->stop < sim->now ? it->stop : sim->now, time = stop > it->start ? stop - it->start : 0;
        text_format(text, "%s", it->name);
        cell(text, measured->sent, 1, 0);
        cell(text, time == 0 ? 0 : (uint64_t)((wide)measured->sent_bytes * BYTE / (wide)time), MBIT, 3);
        cell(text, measured_within(measured, 5000), MS, 3);
        cell(text, measured_within(measured, 9900), MS, 3);
        cell(text, measured->longest, MS, 3);
        cell(text, measured->marked, 1, 0);
        losses(measured, text);
        text_format(text, "\n");
    }
}

/* Begins a row, up to what is promised. */
static void row(const struct place *it, const char *verdict, struct text *text) {
    text_format(text, "%s\t", verdict);
    report_place(it, text);
    text_format(text, "\t");
}

static bool service_row(const struct place *it, struct text *text) {
    bool is_timed = it->service.link != 0;
    wide unit = is_timed ? BYTE : (wide)BILLION, slack = (wide)it->service.slack * unit;
    bool is_kept = is_timed ? it->behind < slack : it->behind <= slack;
    row(it, is_kept ? "kept" : "broken", text);
    text_number(text, is_timed ? it->service.rate : it->service.part, is_timed ? MBIT : BILLION / 100, 4);
    text_format(text, "%s while it has packets, short by at most ", is_timed ? " Mbit/s" : " % of the bytes");
    text_number(text, it->service.slack, 1, 0);
    text_format(text, " bytes\tshort by ");
    text_number(text, (uint64_t)((it->behind + unit - 1) / unit), 1, 0);
    text_format(text, " bytes at worst\n");
    return is_kept;
}

static bool worst_row(const struct simulation *sim, const struct place *it, struct text *text) {
    bool is_timed = it->worst.ns != UINT64_MAX;
    bool is_kept = it->longest_bytes <= it->worst.bytes && (!is_timed || it->longest <= it->worst.ns + sim->late_most);
    row(it, is_kept ? "kept" : "broken", text);
    text_format(text, "leaves within ");
    text_number(text, is_timed ? it->worst.ns : it->worst.bytes, is_timed ? MS : 1, is_timed ? 4 : 0);
    text_format(text, "%s, whatever comes\tthe longest took ", is_timed ? " ms" : " bytes");
    text_number(text, is_timed ? it->longest : it->longest_bytes, is_timed ? MS : 1, is_timed ? 4 : 0);
    text_format(text, "%s\n", is_timed ? " ms" : " bytes");
    return is_kept;
}

static bool latest_row(const struct place *it, struct text *text) {
    bool is_kept = it->latest_missed == 0;
    row(it, is_kept ? "kept" : "broken", text);
    text_format(text, "each packet leaves by the time given on its arrival\t");
    text_number(text, it->latest_count, 1, 0);
    text_format(text, " packets, ");
    text_number(text, it->latest_missed, 1, 0);
    text_format(text, " later");
    if (is_kept && it->worst.ns != UINT64_MAX) {
        text_format(text, "; the nearest ");
        text_number(text, it->latest_near, US, 3);
        text_format(text, " us before");
    }
    text_format(text, "\n");
    return is_kept;
}

/* Polls came later than the promises of a place allow. */
static void late_row(const struct simulation *sim, const struct place *it, struct text *text) {
    row(it, "none", text);
    text_format(text, "holds for polls that are late by at most ");
    text_number(text, it->late, US, 3);
    text_format(text, " us\ta poll was late by ");
    text_number(text, sim->late_most, US, 3);
    text_format(text, " us, so nothing is promised\n");
}

/* Within which lateness of polls all promises hold, where they do. */
static void lateness_row(const struct simulation *sim, uint64_t late, struct text *text) {
    text_format(text, "kept\tpolls\t");
    if (late == UINT64_MAX) {
        text_format(text, "may come at any time\t");
    } else {
        text_format(text, "may be late by at most ");
        text_number(text, late, US, 3);
        text_format(text, " us\t");
    }
    text_format(text, "were late by at most ");
    text_number(text, sim->late_most, US, 3);
    text_format(text, " us\n");
}

bool report_promises(const struct simulation *sim, struct text *text) {
    bool is_kept = true, is_any = false;
    uint64_t late = UINT64_MAX;
    for (size_t at = 0; at < sim->place_count; at++) {
        const struct place *it = &sim->places[at];
        if (!it->is_used || !(it->has_service || it->has_worst)) {
            continue;
        }
        if (sim->late_most > it->late) {
            late_row(sim, it, text);
            continue;
        }
        late = it->late < late ? it->late : late;
        is_any = true;
        is_kept = (!it->has_service || service_row(it, text)) && is_kept;
        is_kept = (!it->has_worst || worst_row(sim, it, text)) && is_kept;
        is_kept = (!it->has_worst || it->latest_count == 0 || latest_row(it, text)) && is_kept;
    }
    if (is_any) {
        lateness_row(sim, late, text);
    }
    return is_kept;
}
