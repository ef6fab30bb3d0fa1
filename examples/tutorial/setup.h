/* A device that is set up by a file of lines of tc, and again whenever the file has changed. */
#ifndef SETUP_H
#define SETUP_H

#include "explain.h"
#include "qtree.h"

#include <inttypes.h>
#include <stdbool.h>
#include <stdio.h>
#include <string.h>

enum { FILE_SIZE = 16384, TOLD = 8 };

/* Explains a line of the text that is not done. */
static inline void explain_line(const char *text, size_t len, const qtree_undone *undone) {
    const char *line = text, *end = text + len, *newline;
    for (uint64_t number = 1; number < undone->line; number++) {
        line = (const char *)memchr(line, '\n', (size_t)(end - line)) + 1;
    }
    newline = memchr(line, '\n', (size_t)(end - line));
    explain(line, (size_t)((newline == NULL ? end : newline) - line), undone->line, undone->code, &undone->fault);
}

/* Reads a file into a text of FILE_SIZE bytes, and returns its length; FILE_SIZE, with the reason, if it cannot. */
static inline size_t read_lines(const char *path, char *text) {
    FILE *file = fopen(path, "r");
    size_t len = file == NULL ? FILE_SIZE : fread(text, 1, FILE_SIZE, file);
    if (file != NULL) {
        fclose(file);
    }
    if (len == FILE_SIZE) {
        printf("%s: cannot be read, or has %d bytes or more\n", path, FILE_SIZE);
    }
    return len;
}

/* Makes the tree what the text of a file says, and prints how much of it that changed; false if it stays as it is, with the reason. */
static inline bool set_up_text(qtree_device *device, const char *path, const char *text, size_t len, uint64_t now) {
    qtree_report report;
    qtree_undone undone[TOLD];
    qtree_code code = qtree_set_up(device, (const uint8_t *)text, len, now, &report, undone, TOLD);
    if (code == QTREE_DONE) {
        printf("%s: %" PRIu64 " added, %" PRIu64 " changed, %" PRIu64 " deleted\n", path, report.added, report.changed, report.deleted);
        return true;
    }
    printf("%s: %s\n", path, qtree_code_sentence(code));
    for (size_t i = 0; code == QTREE_UNDONE && i < report.undone && i < TOLD; i++) {
        explain_line(text, len, &undone[i]);
    }
    return false;
}

static inline bool set_up(qtree_device *device, const char *path, uint64_t now) {
    static char text[FILE_SIZE];
    size_t len = read_lines(path, text);
    return len < FILE_SIZE && set_up_text(device, path, text, len, now);
}

/* Prints the counters of all qdiscs. */
static inline void show(const qtree_device *device) {
    uint8_t text[FILE_SIZE];
    size_t needed;
    if (qtree_show(device, QTREE_SHOW_COUNTERS, text, sizeof text, &needed) == QTREE_DONE) {
        fwrite(text, 1, needed, stdout);
    }
}

#endif
