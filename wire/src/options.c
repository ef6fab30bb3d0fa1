#include "options.h"

#include <getopt.h>
#include <stdlib.h>
#include <string.h>

void options_help(FILE *file) {
    fputs("qtree-wire [OPTIONS] LEFT RIGHT FILE    joins two cards, and shapes both directions by the lines of tc in FILE:\n"
          "                                        `dev LEFT` shapes what leaves by LEFT, `dev RIGHT` what leaves by RIGHT\n"
          "qtree-wire --check FILE                 checks a file without a card\n"
          "qtree-wire --new NAME LEFT RIGHT TO_LEFT TO_RIGHT\n"
          "                                        writes /etc/qtree-wire/NAME.conf and NAME.tc for two rates, such as 20mbit\n"
          "qtree-wire --burst                      the burst that this machine needs, by rate\n"
          "qtree-wire top NAME [TIMES]             a live view; NAME is that of FILE without .tc, or what -n says\n"
          "qtree-wire show|counts|promise|metrics|status|reload NAME\n"
          "\n"
          "  -i packet|xdp  how frames are read: AF_PACKET (the default), or AF_XDP, by which a dead process lets frames pass\n"
          "  -n NAME        the name; its socket is /run/qtree-wire/NAME/socket; a name with a slash is the socket's path\n"
          "  -p PRIORITY    real-time priority of the threads, 0 to 99; 0 is none; 10 if it is not given, where that is permitted\n"
          "  -w MICROSECONDS  at most a turn in so many, up to 10000: larger batches where processor time is short\n"
          "  -o BYTES       what the line adds to each frame, up to 256, as the qdiscs count it\n"
          "  -b SLOTS       frames for which each direction has room, 8192 to 4194304; as many as FILE needs if it is not given\n"
          "  -k             with xdp: frames still pass, unshaped, once the program has ended\n",
          file);
}

static bool read_number(const char *word, long least, long most, long *number, char option) {
    char *end;
    *number = strtol(word, &end, 10);
    if (end != word && *end == '\0' && *number >= least && *number <= most) {
        return true;
    }
    fprintf(stderr, "qtree-wire: -%c takes a number of %ld to %ld: %s\n", option, least, most, word);
    return false;
}

static bool read_io(struct options *options, const char *word) {
    if (strcmp(word, "packet") == 0) {
        options->io = &io_packet;
        return true;
    }
    if (strcmp(word, "xdp") != 0) {
        fprintf(stderr, "qtree-wire: -i takes packet or xdp: %s\n", word);
        return false;
    }
#ifdef WITH_XDP
    options->io = &io_xdp;
    return true;
#else
    fprintf(stderr, "qtree-wire: this program was built without libxdp-dev and libbpf-dev, so that it has no xdp\n");
    return false;
#endif
}

static bool read_option(struct options *options, int option, const char *word) {
    long number = 0;
    bool is_right = true;
    switch (option) {
    case 'i': return read_io(options, word);
    case 'n': options->name = word; return true;
    case 'k': options->keeps_passing = true; return true;
    case 'p':
        is_right = read_number(word, 0, 99, &number, 'p');
        options->priority = (int)number;
        return is_right;
    case 'w':
        is_right = read_number(word, 0, 10000, &number, 'w');
        options->nap = (uint64_t)number * 1000;
        return is_right;
    case 'o':
        is_right = read_number(word, 0, 256, &number, 'o');
        options->overhead = (uint32_t)number;
        return is_right;
    case 'b':
        is_right = read_number(word, 8192, 4194304, &number, 'b');
        options->slots = (uint32_t)number;
        return is_right;
    default: return false;
    }
}

/* The name of a file without its folders and `.tc`. */
static const char *name_of(const char *file) {
    static char name[64];
    const char *slash = strrchr(file, '/');
    snprintf(name, sizeof name, "%s", slash == NULL ? file : slash + 1);
    size_t len = strlen(name);
    if (len > 3 && strcmp(name + len - 3, ".tc") == 0) {
        name[len - 3] = '\0';
    }
    return name;
}

bool options_read(struct options *options, int argc, char **argv) {
    *options = (struct options){ .io = &io_packet, .priority = 10 };
    for (int option; (option = getopt(argc, argv, "i:n:p:w:o:b:k")) != -1;) {
        if (!read_option(options, option, optarg)) {
            return false;
        }
    }
    if (argc - optind != 3) {
        options_help(stderr);
        return false;
    }
    options->left = argv[optind];
    options->right = argv[optind + 1];
    options->file = argv[optind + 2];
    options->name = options->name == NULL ? name_of(options->file) : options->name;
    if (strlen(options->left) >= IF_NAMESIZE || strlen(options->right) >= IF_NAMESIZE || strcmp(options->left, options->right) == 0) {
        fprintf(stderr, "qtree-wire: LEFT and RIGHT are two cards, with names of up to %d letters\n", IF_NAMESIZE - 1);
        return false;
    }
    return true;
}
