/* The longest calls that were found, each made once: bench/worst counts its instructions and its time.
 *
 *   longest          a line for each row: its name, and what is asked
 *   longest NAME     prepares the row, makes its call, and prints the microseconds of the processor that this took
 */
#define _POSIX_C_SOURCE 199309L
#include "longest.h"

#include <stdio.h>
#include <string.h>
#include <time.h>

static const struct row *const tables[] = { poll_rows, arrival_rows, command_rows };

/* The profiler counts what this function does, by its name. */
__attribute__((noinline)) void counted(void (*call)(void));
void counted(void (*call)(void)) {
    call();
    __asm__ volatile("" ::: "memory");
}

static double microseconds(void) {
    struct timespec at;
    clock_gettime(CLOCK_THREAD_CPUTIME_ID, &at);
    return (double)at.tv_sec * 1e6 + (double)at.tv_nsec / 1e3;
}

int main(int count, char **words) {
    for (size_t table = 0; table < sizeof tables / sizeof *tables; table++) {
        for (const struct row *row = tables[table]; row->name; row++) {
            if (count < 2) {
                printf("%s\t%s\n", row->name, row->about);
            } else if (strcmp(words[1], row->name) == 0) {
                row->prepare();
                double begun = microseconds();
                counted(row->call);
                printf("%.1f\n", microseconds() - begun);
                return 0;
            }
        }
    }
    return count >= 2;
}
