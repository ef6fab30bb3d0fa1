/* Runs a mix in a terminal: tools/simulate has the help. */
#include "drawing.h"
#include "report.h"

#include <errno.h>
#include <inttypes.h>
#include <stdlib.h>
#include <string.h>
#include <unistd.h>

enum { COLUMNS = 8, SLICE = 20000, WIDTH = 720, BAR = 40, MANY = 1000000 };

struct asked {
    const char *file, *picture, *session;
    unsigned width, tree; /* the tree that is run alone, counted from 1; 0 for all */
    enum plant plant;
};

static int failed(const char *what, const char *why) {
    fprintf(stderr, "simulate: %s: %s\n", what, why);
    return 2;
}

static void show_progress(const struct simulation *sim, bool is_done) {
    static const char marks[] = "########################################";
    if (!isatty(2)) {
        return;
    }
    if (is_done) {
        fprintf(stderr, "\r%*s\r", BAR + 2, "");
    } else {
        fprintf(stderr, "\r[%-*.*s]", BAR, (int)(sim->now / (sim->mix->last / BAR)), marks);
    }
}

/* How many characters a cell takes on a terminal. */
static size_t columns_of(const char *cell, size_t len) {
    size_t count = 0;
    for (size_t at = 0; at < len; at++) {
        count += (cell[at] & 0xc0) != 0x80;
    }
    return count;
}

/* Prints rows whose cells are separated by tabs, with each column as wide as it has to be. */
static void print_table(const struct text *table, bool is_right) {
    size_t widths[COLUMNS] = { 0 };
    for (int pass = 0; pass < 2; pass++) {
        const char *at = (const char *)table->bytes, *end = at + table->len;
        for (size_t column = 0; at < end; at++) {
            size_t len = strcspn(at, "\t\n"), columns = columns_of(at, len);
            bool is_last = at[len] == '\n';
            if (pass == 0) {
                widths[column] = columns > widths[column] ? columns : widths[column];
            } else {
                int pad = (int)(widths[column] - columns);
                bool is_before = is_right && column > 0 && !is_last;
                printf("%*s%.*s%*s", is_before ? pad : 0, "", (int)len, at, is_before || is_last ? 0 : pad, "");
                printf(is_last ? "\n" : "  ");
            }
            column = is_last ? 0 : column + 1;
            at += len;
        }
    }
}

static bool write_file(const char *name, const struct text *text) {
    FILE *file = fopen(name, "wb");
    bool is_written = file != NULL && !text->is_short && fwrite(text->bytes, 1, text->len, file) == text->len;
    return (file == NULL || fclose(file) == 0) && is_written;
}

static bool read_file(const char *name, struct text *text) {
    bool is_input = strcmp(name, "-") == 0;
    FILE *file = is_input ? stdin : fopen(name, "rb");
    bool is_read = file != NULL && text_read(text, file);
    if (file != NULL && !is_input) {
        fclose(file);
    }
    return is_read;
}

/* Says what a run of many packets will take. */
static void show_cost(const struct simulation *sim) {
    uint64_t packets = simulation_packets(sim);
    if (packets > MANY) {
        fprintf(stderr, "simulate: up to %" PRIu64 " packets, which take some %" PRIu64 " seconds\n", packets, packets / MANY);
    }
}

/* Runs a tree to its end, with a progress bar on a terminal. */
static bool run(struct simulation *sim, const struct mix *mix, size_t tree, uint32_t recorder, enum plant plant) {
    bool is_open = simulation_open(sim, mix, tree, recorder, plant);
    if (is_open && recorder == 0) {
        show_cost(sim);
    }
    while (is_open && !simulation_run(sim, UINT64_MAX, SLICE)) {
        show_progress(sim, false);
    }
    show_progress(sim, true);
    return is_open && !sim->is_short;
}

/* Prints both tables of a run; whether each promise was kept. */
static bool print_run(const struct simulation *sim) {
    struct text flows = NO_TEXT, promises = NO_TEXT;
    report_flows(sim, &flows);
    bool is_kept = report_promises(sim, &promises);
    text_bytes(&flows, "", 1);
    flows.len--;
    printf("== %s\n", sim->tree->name);
    print_table(&flows, true);
    printf(promises.len > 0 ? "\n" : "\nNothing is promised in time to the places that these packets go through.\n");
    text_bytes(&promises, "", 1);
    promises.len--;
    print_table(&promises, false);
    text_free(&flows);
    text_free(&promises);
    return is_kept;
}

/* Runs a tree again, which does the same, with a recorder that has room for all of its events, and writes the script of them. */
static int write_session(const struct asked *asked, struct simulation *sim, const struct mix *mix, size_t tree) {
    struct text script = NO_TEXT;
    uint64_t events;
    size_t recorded, needed = 0;
    qtree_events(&sim->device, &events, &recorded);
    if (events > EVENTS_MOST) {
        return failed(asked->session, "a session has 1,000,000 events at most, and this run has more: make it shorter");
    }
    simulation_close(sim);
    if (!run(sim, mix, tree, (uint32_t)events, asked->plant)) {
        return failed(asked->session, "no memory for the session");
    }
    qtree_recorded_script(&sim->device, NULL, 0, &needed);
    uint8_t *end = text_room(&script, needed);
    bool is_written = end != NULL && qtree_recorded_script(&sim->device, end, needed, &needed) == QTREE_DONE;
    script.len = is_written ? needed : 0;
    text_format(&script, "reap\ntotals\n");
    is_written = is_written && write_file(asked->session, &script);
    text_free(&script);
    return is_written ? 0 : failed(asked->session, errno != 0 ? strerror(errno) : "cannot be written");
}

/* Runs all trees that are asked for. */
static int run_all(const struct asked *asked, const struct mix *mix, struct simulation *sims) {
    const struct simulation *runs[TREES] = { NULL };
    size_t count = 0;
    bool is_kept = true;
    int status = 0;
    for (size_t tree = 0; tree < mix->tree_count && status == 0; tree++) {
        struct simulation *sim = &sims[tree];
        if (asked->tree != 0 && asked->tree != tree + 1) {
            continue;
        }
        if (!run(sim, mix, tree, 0, asked->plant)) {
            return failed(asked->file, "no memory");
        }
        runs[count++] = sim;
        is_kept = print_run(sim) && is_kept;
        status = asked->session == NULL ? 0 : write_session(asked, sim, mix, tree);
    }
    if (status == 0 && asked->picture != NULL) {
        struct text picture = NO_TEXT;
        draw_file(runs, count, asked->width, &picture);
        status = write_file(asked->picture, &picture) ? 0 : failed(asked->picture, errno != 0 ? strerror(errno) : "cannot be written");
        text_free(&picture);
    }
    return status != 0 ? status : !is_kept;
}

static int run_mix(const struct asked *asked, const struct mix *mix) {
    if (asked->tree > mix->tree_count || (asked->session != NULL && asked->tree == 0 && mix->tree_count > 1)) {
        return failed(asked->file, "name one of its trees by --tree N");
    }
    struct simulation *sims = calloc(TREES, sizeof *sims);
    if (sims == NULL) {
        return failed(asked->file, "no memory");
    }
    int status = run_all(asked, mix, sims);
    for (size_t tree = 0; tree < TREES; tree++) {
        simulation_close(&sims[tree]);
    }
    free(sims);
    return fflush(stdout) != 0 ? failed("the tables", strerror(errno)) : status;
}

static bool take(struct asked *asked, const char *name, const char *value) {
    static const char *const plants[] = { "nothing", "share", "late", "byte" };
    if (strcmp(name, "--picture") == 0) {
        asked->picture = value;
    } else if (strcmp(name, "--session") == 0) {
        asked->session = value;
    } else if (strcmp(name, "--tree") == 0) {
        asked->tree = (unsigned)strtoul(value, NULL, 10);
        return asked->tree >= 1;
    } else if (strcmp(name, "--width") == 0) {
        asked->width = (unsigned)strtoul(value, NULL, 10);
        return asked->width >= 240 && asked->width <= 4000;
    } else if (strcmp(name, "--plant") == 0) {
        for (unsigned at = 1; at < 4; at++) {
            asked->plant = strcmp(value, plants[at]) == 0 ? (enum plant)at : asked->plant;
        }
        return asked->plant != PLANT_NOTHING;
    } else {
        return false;
    }
    return true;
}

int main(int argc, char **argv) {
    struct asked asked = { .width = WIDTH };
    int at = 1;
    for (; at + 1 < argc && strncmp(argv[at], "--", 2) == 0; at += 2) {
        if (!take(&asked, argv[at], argv[at + 1])) {
            return failed(argv[at], "is no option, or has no such value: tools/simulate --help has them");
        }
    }
    if (at + 1 != argc || strncmp(argv[at], "--", 2) == 0) {
        return failed("usage", "tools/simulate [OPTION VALUE].. FILE; --help says more");
    }
    struct text file = NO_TEXT, faults = NO_TEXT;
    struct mix *mix = calloc(1, sizeof *mix);
    int status = 2;
    asked.file = argv[at];
    if (mix == NULL || !read_file(asked.file, &file)) {
        failed(asked.file, errno != 0 ? strerror(errno) : "cannot be read");
    } else if (mix_read(mix, file.bytes, file.len, &faults)) {
        status = run_mix(&asked, mix);
    } else {
        fwrite(faults.bytes, 1, faults.len, stderr);
    }
    if (mix != NULL) {
        mix_free(mix);
    }
    free(mix);
    text_free(&file);
    text_free(&faults);
    return status;
}
