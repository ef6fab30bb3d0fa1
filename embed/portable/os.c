/* What the program asks of the kit's own C code, for processors of which the kit has none: its arguments, and errno. An init
 * function gets the arguments from glibc alone. */
#include <errno.h>
#include <stddef.h>
#include <stdint.h>

enum { IS_MISSING = -1, IS_TOO_LONG = -2 };

static int count;
static char **words;

__attribute__((constructor)) static void keep(int argc, char **argv) {
    count = argc;
    words = argv;
}

uint64_t rattle_arg_count(void) { return (uint64_t)count; }

/* Copies an argument, without its end, and answers its length. */
int64_t rattle_arg(uint64_t i, char *to, uint64_t room) {
    if (i >= (uint64_t)count || words[i] == NULL) {
        return IS_MISSING;
    }
    uint64_t at = 0;
    for (; words[i][at] != '\0'; at++) {
        if (at == room) {
            return IS_TOO_LONG;
        }
        to[at] = words[i][at];
    }
    return (int64_t)at;
}

int32_t rattle_errno(void) { return errno; }

void rattle_set_errno(int32_t error) { errno = error; }
