/* The parts of qtree-wire that need no card: lines of a file, options, bursts, samples and slots. */
#include "burst.h"
#include "lines.h"
#include "options.h"
#include "samples.h"

#include <getopt.h>
#include <stdlib.h>
#include <string.h>

#define CHECK(holds) ((holds) ? (void)0 : fail(__LINE__, #holds))

/* No test opens a card. */
const struct io io_packet = { .name = "packet" };
#ifdef WITH_XDP
const struct io io_xdp = { .name = "xdp" };
#endif

/* Nothing here asks for the time. */
uint64_t clock_now(void) { return 0; }

_Noreturn static void fail(int line, const char *what) {
    printf("parts.c:%d: %s does not hold\n", line, what);
    exit(1);
}

static void is_text(char *text, const char *wanted) {
    CHECK(text != NULL && strcmp(text, wanted) == 0);
    free(text);
}

/* Each line stays at its number, whatever the card before it; blanks end a name, and so does the end of a line from Windows. */
static void lines_of_cards(void) {
    static const char text[] = "# a comment, dev lan0\n"
                               "tc qdisc add dev lan0 root pfifo\n"
                               "\n"
                               " \ttc qdisc add dev\tlan01 root pfifo\r\n"
                               "tc qdisc add dev lan\n"
                               "tc qdisc add root dev lan0\r";
    is_text(lines_for(text, "lan0"), "\ntc qdisc add dev lan0 root pfifo\n\n\n\ntc qdisc add root dev lan0\r");
    is_text(lines_for(text, "lan01"), "\n\n\n \ttc qdisc add dev\tlan01 root pfifo\r\n\n");
    is_text(lines_for(text, "lan"), "\n\n\n\ntc qdisc add dev lan\n");
    is_text(lines_for("", "lan"), "");
    char names[3][64];
    CHECK(lines_cards(text, names) == 3 && strcmp(names[0], "lan0") == 0 && strcmp(names[1], "lan01") == 0 && strcmp(names[2], "lan") == 0);
    CHECK(lines_cards("tc x dev a\ntc x dev b\ntc x dev a\n# dev c\n", names) == 2);
    CHECK(lines_cards("tc x dev a\ntc x dev b\ntc x dev c\ntc x dev d\n", names) == 3);
}

/* Whether lines fit two cards, and what is said of those that do not. */
static void lines_that_fit(const char *text, bool do_fit, const char *said) {
    char room[400] = "";
    FILE *says = fmemopen(room, sizeof room, "w");
    CHECK(says != NULL && lines_fit("f", text, "a", "b", says) == do_fit);
    fclose(says);
    CHECK(strcmp(room, said) == 0);
}

/* A file is read to its last byte; with more than a mebibyte, or with a zero byte, it is none. */
static void read_back(const char *name, size_t len, char byte, bool is_text) {
    char room[400] = "";
    FILE *file = fopen(name, "wb"), *says = fmemopen(room, sizeof room, "w");
    CHECK(file != NULL && says != NULL);
    for (size_t at = 0; at < len; at++) {
        fputc(at + 1 == len ? byte : '#', file);
    }
    fclose(file);
    char *text = lines_read(name, says);
    fclose(says);
    remove(name);
    CHECK((text != NULL) == is_text && (room[0] == '\0') == is_text);
    CHECK(text == NULL || (strlen(text) == len && (len == 0 || text[len - 1] == byte)));
    free(text);
}

/* What a rate brings while polls are late, and a packet more, or two packets. */
static void bursts(void) {
    CHECK(burst_for(8000000000, 1000, 1522) == 3044 && burst_for(8000000000, 1522, 1522) == 3044);
    CHECK(burst_for(8000000000, 1523, 1522) == 3045 && burst_for(8000000000, 100000, 1522) == 101522);
    CHECK(burst_for(20000000, 2000000, 1522) == 6522 && burst_for(0, 1000000, 100) == 200);
}

static void values(void) {
    struct samples samples;
    CHECK(samples_read(&samples, "# TYPE a counter\na{device=\"left\"} 1\na{device=\"right\",kind=\"x\",le=\"+Inf\"} 2.5\n\n"
                                 "b 3\nb{device=\"left\"} 4"));
    CHECK(samples.count == 3 && samples_value(&samples, "a", "left", "", -1) == 1 && samples_value(&samples, "b", "left", "", -1) == 4);
    CHECK(samples_value(&samples, "a", "right", "kind=\"x\",le=\"+Inf\"", -1) == 2.5);
    CHECK(samples_value(&samples, "a", "right", "", -1) == -1 && samples_value(&samples, "b", "right", "", 7) == 7);
    samples_free(&samples);
}

/* Whether a command line is right, up to 18 words. */
static bool reads(struct options *options, const char *words) {
    char copy[200], *argv[20] = { copy };
    int argc = 1;
    snprintf(copy, sizeof copy, "wire %s", words);
    for (char *at = copy; (at = strchr(at, ' ')) != NULL && argc < 19;) {
        *at++ = '\0';
        argv[argc++] = at;
    }
    static struct options kept[32];
    static char lines[32][200];
    static int count;
    /* What is read points into the line. */
    memcpy(lines[count], copy, sizeof copy);
    for (int i = 0; i < argc; i++) {
        argv[i] = lines[count] + (argv[i] - copy);
    }
    optind = 0;
    bool is_right = options_read(&kept[count], argc, argv);
    *options = kept[count++];
    return is_right;
}

static void command_lines(void) {
    struct options it;
    CHECK(reads(&it, "-w 200 -o 256 -p 0 -b 8192 -k a b /etc/x/line.tc"));
    CHECK(it.nap == 200000 && it.overhead == 256 && it.priority == 0 && it.slots == 8192 && it.keeps_passing);
    CHECK(strcmp(it.name, "line") == 0 && strcmp(it.left, "a") == 0 && strcmp(it.right, "b") == 0 && it.io == &io_packet);
    CHECK(reads(&it, "-p 99 -w 10000 -b 4194304 a b .tc") && it.priority == 99 && it.slots == 4194304 && strcmp(it.name, ".tc") == 0);
    CHECK(reads(&it, "-n other a b c.txt") && strcmp(it.name, "other") == 0 && it.priority == 10 && !it.keeps_passing && it.slots == 0);
    CHECK(reads(&it, "fifteen-letters b c") && !reads(&it, "sixteen-letters-x b c"));
    static const char *const wrong[] = { "-o 257 a b c", "-p 100 a b c", "-p -1 a b c", "-w 10001 a b c", "-b 8191 a b c",
                                         "-b 4194305 a b c", "-w 5x a b c", "-i both a b c", "a a c", "a b", "a b c d" };
    for (size_t i = 0; i < sizeof wrong / sizeof wrong[0]; i++) {
        CHECK(!reads(&it, wrong[i]));
    }
}

/* Each slot is taken once, and again once it was given back. */
static void slots(void) {
    struct pool pool;
    uint32_t buf;
    bool is_taken[5] = { false };
    CHECK(pool_open(&pool, 5, 64, NULL));
    for (int i = 0; i < 5; i++) {
        CHECK(pool_left(&pool) == (size_t)(5 - i) && pool_take(&pool, &buf) && buf < 5 && !is_taken[buf]);
        is_taken[buf] = true;
    }
    CHECK(!pool_take(&pool, &buf) && pool_left(&pool) == 0);
    pool_give(&pool, 3);
    pool_give(&pool, 1);
    CHECK(pool_left(&pool) == 2 && pool_take(&pool, &buf) && buf == 1 && pool_take(&pool, &buf) && buf == 3 && !pool_take(&pool, &buf));
    pool_close(&pool, true);
    CHECK(pool_open(&pool, 2, 64, NULL) && pool_take(&pool, &buf));
    pool_give(&pool, buf);
    CHECK(pool_left(&pool) == 2);
    pool_close(&pool, true);
}

int main(void) {
    /* What is wrong with a command line goes to standard error. */
    CHECK(freopen("/dev/null", "w", stderr) != NULL);
    lines_of_cards();
    lines_that_fit("# x\n\ntc q dev a x\ntc q dev b\n", true, "");
    lines_that_fit("tc q dev ab x\ntc q\n", false,
                   "f:1: the card is neither a nor b: tc q dev ab x\nf:2: the line has no `dev a` or `dev b`: tc q\n");
    read_back("build/parts.tc", 0, '#', true);
    read_back("build/parts.tc", 1 << 20, 'x', true);
    read_back("build/parts.tc", (1 << 20) + 1, 'x', false);
    read_back("build/parts.tc", 100, '\0', false);
    bursts();
    values();
    command_lines();
    slots();
    puts("lines, options, bursts, samples and slots");
    return 0;
}
