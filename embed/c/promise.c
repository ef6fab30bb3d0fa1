/* What is promised by a set-up to each class of a drr and to each pfifo and bfifo: tools/promise runs this on a file of tc's lines. It opens
 * a device, does the lines on it, and asks qtree_service and qtree_lateness of each class, and qtree_worst of each fifo. Where nothing is
 * promised it says why. */
#include "qtree.h"

#include <errno.h>
#include <inttypes.h>
#include <stdbool.h>
#include <stdio.h>
#include <stdlib.h>
#include <string.h>

static const char usage[] = "usage: promise [--mtu N] [--txqueuelen N] FILE";

/* A device has 256 qdiscs at most. */
enum { MOST_NODES = 256, LINE = 65536 };

struct tree {
    qtree_device device;
    qtree_node_view nodes[MOST_NODES];
    size_t count;
    uint64_t mtu;
};

static int failed(const char *what, const char *why) {
    fprintf(stderr, "promise: %s: %s\n", what, why);
    return 2;
}

/* Does one line on the device; what is no line of tc is left out. */
static bool do_line(struct tree *tree, const char *line, size_t number) {
    qtree_fault fault;
    size_t blanks = strspn(line, " \t");
    if (strncmp(line + blanks, "tc", 2) != 0 || strspn(line + blanks + 2, " \t") == 0) {
        return true;
    }
    qtree_code code = qtree_run(&tree->device, line, 0, &fault);
    if (code == QTREE_DONE) {
        return true;
    }
    static uint8_t text[2 * LINE];
    size_t len;
    if (qtree_explain((const uint8_t *)line, strlen(line), number, code, &fault, text, sizeof text, &len) == QTREE_DONE) {
        fwrite(text, 1, len, stderr);
    } else {
        fprintf(stderr, "promise: line %zu: %s\n", number, qtree_code_sentence(code));
    }
    return false;
}

static int do_lines(struct tree *tree, FILE *file) {
    static char line[LINE];
    bool is_done = true;
    for (size_t number = 1; fgets(line, sizeof line, file) != NULL; number++) {
        line[strcspn(line, "\n")] = 0;
        is_done = do_line(tree, line, number) && is_done;
    }
    return ferror(file) ? failed("the file", strerror(errno)) : is_done ? 0 : 1;
}

/* The qdisc with this handle; one is there. */
static const qtree_node_view *node_of(const struct tree *tree, uint16_t handle) {
    size_t at = 0;
    while (at + 1 < tree->count && tree->nodes[at].handle != handle) {
        at++;
    }
    return &tree->nodes[at];
}

static const char *kind_of(uint32_t kind) {
    static const char *const names[] = {"qdisc", "pfifo", "bfifo", "prio", "tbf", "drr", "fq_codel"};
    return names[kind < sizeof names / sizeof *names ? kind : 0];
}

/* A tbf that is not at the root, if there is one. */
static const qtree_node_view *tbf_below(const struct tree *tree) {
    for (size_t i = 1; i < tree->count; i++) {
        if (tree->nodes[i].kind == QTREE_TBF) {
            return &tree->nodes[i];
        }
    }
    return NULL;
}

/* Whether the tbf at the root has room in its burst for a longest packet and for what its rate brings in a nanosecond. */
static bool has_room(const struct tree *tree) {
    const qtree_node_view *root = &tree->nodes[0];
    return root->burst > tree->mtu && root->rate <= (root->burst - tree->mtu) * UINT64_C(8000000000);
}

static void say_no_room(const struct tree *tree) {
    const qtree_node_view *root = &tree->nodes[0];
    printf("nothing: the burst of the tbf %x:, %" PRIu32 " bytes, has no room for a packet of %" PRIu64
           " bytes and for what the rate brings in a nanosecond\n",
           root->handle, root->burst, tree->mtu);
}

/* Why a class of this drr is promised nothing. */
static void say_why(const struct tree *tree, const qtree_node_view *drr) {
    const qtree_node_view *root = &tree->nodes[0], *at = drr;
    while (at->place != QTREE_ROOT) {
        at = node_of(tree, at->parent_major);
        if (at->kind != QTREE_DRR && !(at == root && at->kind == QTREE_TBF)) {
            printf("nothing: the %s %x: stands between it and the root\n", kind_of(at->kind), at->handle);
            return;
        }
    }
    const qtree_node_view *tbf = tbf_below(tree);
    if (tbf != NULL) {
        printf("nothing: while the tbf %x: waits, the drr above it waits too\n", tbf->handle);
    } else {
        say_no_room(tree);
    }
}

/* Why the packets of this fifo are promised no delay. */
static void say_why_none(const struct tree *tree, const qtree_node_view *fifo) {
    const qtree_node_view *root = &tree->nodes[0], *at = fifo;
    while (at->place != QTREE_ROOT) {
        const qtree_node_view *parent = node_of(tree, at->parent_major);
        if (parent->kind == QTREE_PRIO && at->parent_minor != 1) {
            printf("nothing: more may arrive in the bands of the prio %x: before it\n", parent->handle);
            return;
        }
        if (parent->kind == QTREE_DRR && at != fifo) {
            printf("nothing: other classes of the drr %x: send before the %s %x:\n", parent->handle, kind_of(at->kind), at->handle);
            return;
        }
        if ((parent->kind == QTREE_TBF && parent != root) || (parent->kind == QTREE_PRIO && at->kind == QTREE_DRR)) {
            printf("nothing: the %s %x: stands between it and the root\n", kind_of(parent->kind), parent->handle);
            return;
        }
        at = parent;
    }
    const qtree_node_view *tbf = tbf_below(tree);
    if (tbf != NULL) {
        printf("nothing: while the tbf %x: waits, other packets may go before\n", tbf->handle);
    } else if (root->kind == QTREE_TBF && !has_room(tree)) {
        say_no_room(tree);
    } else {
        printf("nothing: the number is too large\n");
    }
}

/* A time with its unit; none where polls may come at any time. */
static void put_time(uint64_t ns) {
    if (ns == UINT64_MAX) {
        printf("%15s", "any");
    } else {
        printf("%12.3f us", (double)ns / 1e3);
    }
}

static void put_class(const struct tree *tree, const qtree_node_view *drr, const qtree_class_view *class) {
    qtree_promise promise;
    uint64_t late;
    char name[16];
    snprintf(name, sizeof name, "%x:%x", class->major, class->minor);
    printf("%-10s", name);
    if (qtree_service(&tree->device, QTREE_CLASS, class->major, class->minor, &promise) != QTREE_DONE ||
        qtree_lateness(&tree->device, QTREE_CLASS, class->major, class->minor, &late) != QTREE_DONE) {
        printf("  ");
        say_why(tree, drr);
        return;
    }
    printf("%9.4f %%", (double)promise.part / 1e7);
    if (promise.link != 0) {
        printf("%16" PRIu64, promise.rate);
    } else {
        printf("%16s", "-");
    }
    printf("%11" PRIu64 " bytes", promise.slack);
    put_time(late);
    printf("\n");
}

/* The classes of each drr, from the root down. */
static void put_table(const struct tree *tree) {
    printf("%-10s%11s%16s%17s%15s\n", "class", "share", "bits a second", "less at most", "polls late");
    for (size_t i = 0; i < tree->count; i++) {
        qtree_class_view class;
        for (size_t which = 0; qtree_class(&tree->device, i, which, &class) == QTREE_DONE; which++) {
            if (class.kind == QTREE_DRR) {
                put_class(tree, &tree->nodes[i], &class);
            }
        }
    }
}

static void put_fifo(const struct tree *tree, const qtree_node_view *fifo) {
    qtree_delay delay;
    char name[16] = "root";
    if (fifo->place == QTREE_CLASS) {
        snprintf(name, sizeof name, "%x:%x", fifo->parent_major, fifo->parent_minor);
    }
    printf("%-10s%11s", name, kind_of(fifo->kind));
    if (qtree_worst(&tree->device, fifo->place, fifo->parent_major, fifo->parent_minor, &delay) != QTREE_DONE) {
        printf("  ");
        say_why_none(tree, fifo);
        return;
    }
    printf("%16" PRIu64, delay.bytes);
    if (delay.ns != UINT64_MAX) {
        printf("%14.3f us", (double)delay.ns / 1e3);
    } else {
        printf("%17s", "-");
    }
    put_time(delay.late);
    printf("\n");
}

/* The fifos, from the root down. */
static void put_fifos(const struct tree *tree) {
    printf("\n%-10s%11s%16s%17s%15s\n", "fifo at", "kind", "bytes till gone", "worst delay", "polls late");
    for (size_t i = 0; i < tree->count; i++) {
        if (tree->nodes[i].kind == QTREE_PFIFO || tree->nodes[i].kind == QTREE_BFIFO) {
            put_fifo(tree, &tree->nodes[i]);
        }
    }
}

static int tell(struct tree *tree, const qtree_settings *settings, FILE *file) {
    tree->mtu = settings->mtu;
    if (qtree_open(&tree->device, settings) != QTREE_DONE) {
        return failed("the device", "an option is out of its range");
    }
    int status = do_lines(tree, file);
    if (status == 0) {
        while (tree->count < MOST_NODES && qtree_node(&tree->device, tree->count, &tree->nodes[tree->count]) == QTREE_DONE) {
            tree->count++;
        }
        put_table(tree);
        put_fifos(tree);
        status = fflush(stdout) != 0 ? failed("the table", strerror(errno)) : 0;
    }
    qtree_close(&tree->device);
    return status;
}

/* A number up to this one. */
static bool read_number(const char *word, uint64_t most, uint64_t *number) {
    char *end;
    if (word == NULL || *word < '0' || *word > '9') {
        return false;
    }
    errno = 0;
    *number = strtoull(word, &end, 10);
    return errno == 0 && *end == 0 && *number <= most;
}

int main(int argc, char **argv) {
    static struct tree tree = {.device = QTREE_CLOSED};
    qtree_settings settings = QTREE_DEFAULTS;
    int at = 1;
    for (; at + 1 < argc && strncmp(argv[at], "--", 2) == 0; at += 2) {
        uint64_t number;
        bool is_mtu = strcmp(argv[at], "--mtu") == 0;
        if ((!is_mtu && strcmp(argv[at], "--txqueuelen") != 0) || !read_number(argv[at + 1], is_mtu ? UINT16_MAX : UINT32_MAX, &number)) {
            return failed(argv[at], usage);
        }
        if (is_mtu) {
            settings.mtu = (uint16_t)number;
        } else {
            settings.txqueuelen = (uint32_t)number;
        }
    }
    if (at + 1 != argc) {
        fprintf(stderr, "%s\n", usage);
        return 2;
    }
    FILE *file = strcmp(argv[at], "-") == 0 ? stdin : fopen(argv[at], "r");
    if (file == NULL) {
        return failed(argv[at], strerror(errno));
    }
    return tell(&tree, &settings, file);
}
