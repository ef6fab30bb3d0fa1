/* What the program asks of os.c: its arguments, which are those of this run, and errno. */
#include "os.c"

#include <stdio.h>
#include <stdlib.h>
#include <string.h>

#define CHECK(holds) ((holds) ? (void)0 : fail(__LINE__, #holds))

_Noreturn static void fail(int line, const char *what) {
    fprintf(stderr, "os_test.c:%d: %s does not hold\n", line, what);
    exit(1);
}

/* An argument comes whole where there is just room for it, and is too long where there is a byte less. */
static void is_argument(uint64_t i, const char *wanted) {
    char room[64];
    int64_t len = (int64_t)strlen(wanted);
    memset(room, '#', sizeof room);
    CHECK(rattle_arg(i, room, (uint64_t)len) == len && memcmp(room, wanted, (size_t)len) == 0 && room[len] == '#');
    CHECK(rattle_arg(i, room, sizeof room) == len);
    CHECK(len == 0 || rattle_arg(i, room, (uint64_t)len - 1) == IS_TOO_LONG);
}

int main(int argc, char **argv) {
    char room[4];
    CHECK(argc == 4 && rattle_arg_count() == 4);
    is_argument(0, argv[0]);
    is_argument(1, "one");
    is_argument(2, "");
    is_argument(3, "a longer one");
    CHECK(rattle_arg(4, room, sizeof room) == IS_MISSING && rattle_arg(UINT64_MAX, room, sizeof room) == IS_MISSING);
    rattle_set_errno(7);
    CHECK(errno == 7 && rattle_errno() == 7);
    errno = 11;
    CHECK(rattle_errno() == 11);
    return 0;
}
