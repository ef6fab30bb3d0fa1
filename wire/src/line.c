#include "line.h"

#include "burst.h"
#include "setup.h"

#include <errno.h>
#include <inttypes.h>
#include <net/if.h>
#include <stdlib.h>
#include <string.h>
#include <sys/stat.h>

enum { LONGEST = 1522, PATH = 512, LEAST_LATE = 2000000 };

/* A rate as tc writes it, in bits a second; 0 if it is none. */
static uint64_t rate_of(const char *words) {
    static const struct {
        const char *unit;
        double bits;
    } units[] = { { "bit", 1 }, { "kbit", 1e3 }, { "mbit", 1e6 }, { "gbit", 1e9 } };
    char *end;
    double number = strtod(words, &end);
    for (size_t i = 0; i < sizeof units / sizeof units[0]; i++) {
        if (strcmp(end, units[i].unit) == 0 && number * units[i].bits >= 8000 && number * units[i].bits <= 1e11) {
            return (uint64_t)(number * units[i].bits);
        }
    }
    return 0;
}

static bool is_name(const char *name) {
    size_t len = strlen(name);
    return len > 0 && len < IF_NAMESIZE && strspn(name, "abcdefghijklmnopqrstuvwxyzABCDEFGHIJKLMNOPQRSTUVWXYZ0123456789_.-") == len &&
           name[0] != '.' && name[0] != '-';
}

static FILE *create(const char *folder, const char *name, const char *end, char path[PATH]) {
    snprintf(path, PATH, "%s/%s.%s", folder, name, end);
    FILE *file = fopen(path, "wx");
    if (file == NULL) {
        fprintf(stderr, "qtree-wire: %s: %s\n", path, strerror(errno));
        return NULL;
    }
    chmod(path, 0644);
    return file;
}

static void write_tree(FILE *file, const char *card, uint64_t rate, uint64_t late) {
    fprintf(file, "tc qdisc add dev %s root handle 1: tbf rate %" PRIu64 "bit burst %" PRIu64 " latency 50ms\n", card, rate,
            burst_for(rate, late, LONGEST));
    fprintf(file, "tc qdisc add dev %s parent 1:1 handle 10: fq_codel\n", card);
}

static bool are_right(char **words) {
    for (int i = 0; i < 3; i++) {
        if (!is_name(words[i])) {
            fprintf(stderr, "qtree-wire: a name has up to %d letters, digits, dots, dashes and underscores: %s\n", IF_NAMESIZE - 1,
                    words[i]);
            return false;
        }
    }
    for (int i = 3; i < 5; i++) {
        if (rate_of(words[i]) == 0) {
            fprintf(stderr, "qtree-wire: no rate of 8kbit to 100gbit, such as 20mbit: %s\n", words[i]);
            return false;
        }
    }
    return true;
}

int line_new(const char *folder, char **words) {
    char settings[PATH], tree[PATH];
    const char *name = words[0], *left = words[1], *right = words[2];
    if (!are_right(words)) {
        return 2;
    }
    mkdir(folder, 0755);
    FILE *file = create(folder, name, "tc", tree);
    if (file == NULL) {
        return 1;
    }
    uint64_t late = burst_lateness(true);
    late = late == UINT64_MAX ? burst_lateness(false) : late;
    late = late < LEAST_LATE ? LEAST_LATE : late;
    fprintf(
        file,
        "# %s, towards %s and towards %s. The bursts are for polls that are up to %.1f ms late; sleeps on this machine were no later.\n",
        name, left, right, (double)late / 1e6);
    write_tree(file, left, rate_of(words[3]), late);
    write_tree(file, right, rate_of(words[4]), late);
    bool is_written = fclose(file) == 0;
    file = create(folder, name, "conf", settings);
    if (file == NULL) {
        remove(tree);
        return 1;
    }
    fprintf(file,
            "# The cards, how frames are read (xdp or packet), and further options of "
            "qtree-wire.\nLEFT=%s\nRIGHT=%s\nIO=packet\nOPTIONS=-p 10\n",
            left, right);
    is_written = fclose(file) == 0 && is_written;
    printf("wrote %s and %s\n", settings, tree);
    return is_written && setup_check(tree, stdout) ? 0 : 1;
}
