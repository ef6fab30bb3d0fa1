#include "units.h"

#include <inttypes.h>

struct unit {
    const char *name;
    uint64_t of;
};
static const struct unit all[2][5] = {
    { { "ns", 1 }, { "us", 1000 }, { "ms", 1000000 }, { "s", 1000000000 }, { "", 0 } },
    { { "bit", 1 }, { "kbit", 1000 }, { "mbit", 1000000 }, { "gbit", 1000000000 }, { "", 0 } },
};
static const uint64_t MOST = UINT64_C(1) << 53;

/* What the unit behind the digits stands for, or 0. */
static uint64_t unit_of(struct word word, int units) {
    for (const struct unit *it = all[units]; it->of != 0; it++) {
        if (word_is(word, it->name)) {
            return it->of;
        }
    }
    return 0;
}

bool read_unit(struct word word, int units, uint64_t *value) {
    uint64_t digits = 0, scale = 1;
    size_t at = 0;
    bool is_behind = false, is_there = false;
    for (; at < word.len && (digit_value(word.at[at], 10) >= 0 || (word.at[at] == '.' && !is_behind)); at++) {
        if (word.at[at] == '.') {
            is_behind = true;
            continue;
        }
        if (digits > MOST / 10 || scale > MOST / 10) {
            return false;
        }
        digits = digits * 10 + (uint64_t)digit_value(word.at[at], 10);
        scale *= is_behind ? 10 : 1;
        is_there = true;
    }
    uint64_t of = unit_of((struct word){ word.at + at, word.len - at }, units);
    if (!is_there || of == 0 || digits / scale > MOST / of) {
        return false;
    }
    *value = digits / scale * of + digits % scale * of / scale;
    return true;
}

static void text_whole(struct text *text, uint64_t value) {
    if (value < 1000) {
        text_format(text, "%u", (unsigned)value);
        return;
    }
    text_whole(text, value / 1000);
    unsigned rest = (unsigned)(value % 1000);
    text_format(text, ",%u%u%u", rest / 100, rest / 10 % 10, rest % 10);
}

void text_number(struct text *text, uint64_t value, uint64_t unit, unsigned digits) {
    uint64_t step = unit;
    for (uint64_t most = 1; digits > 0; digits--, most *= 10) {
        /* Each digit that the whole part lacks is one behind the point. */
        step = value / unit < most && step > 1 ? step / 10 : step;
    }
    for (; value < step && step > 1 && value > 0; step /= 10) {
    }
    uint64_t steps = (value + step / 2) / step, parts = unit / step, rest = steps % parts;
    text_whole(text, steps / parts);
    if (rest == 0) {
        return;
    }
    text_format(text, ".");
    while (rest > 0) {
        parts /= 10;
        text_format(text, "%u", (unsigned)(rest / parts));
        rest %= parts;
    }
}
