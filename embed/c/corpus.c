/* Plays the scripts of files of cases and compares each report and status to the byte.
 *
 *     corpus FILE..
 *
 * A case begins with a line `case NAME`; `options ..` and `status N` may follow. `< TEXT` is a line of the script, `> TEXT` one of
 * the report, and `<|` begins a last line without a newline. */
#include "session.h"

#include <stdlib.h>
#include <string.h>

struct one {
    char name[256];
    struct play_options options;
    int status;
    struct text script, report;
    bool is_begun, is_bad;
};

static void begin(struct one *one, const char *name) {
    text_free(&one->script);
    text_free(&one->report);
    *one = (struct one){ .options = PLAY_DEFAULTS, .is_begun = true };
    snprintf(one->name, sizeof one->name, "%s", name);
}

/* Whether the case that was read plays as it says; counts it. */
static void finish(struct one *one, const char *file, size_t counts[2]) {
    if (!one->is_begun) {
        return;
    }
    struct text report = NO_TEXT;
    int status = play_script(&one->options, one->script.bytes, one->script.len, &report);
    bool is_right = !one->is_bad && status == one->status && report.len == one->report.len &&
                    (report.len == 0 || memcmp(report.bytes, one->report.bytes, report.len) == 0);
    counts[is_right ? 0 : 1]++;
    if (!is_right) {
        printf("%s %s: WRONG, status %d\n", file, one->name, status);
    }
    text_free(&report);
}

static void options(struct one *one, char *words) {
    for (char *name = strtok(words, " "); name != NULL; name = strtok(NULL, " ")) {
        char *value = strtok(NULL, " ");
        one->is_bad = one->is_bad || value == NULL || !take_option(&one->options, name, value);
    }
}

static bool begins(const uint8_t *line, size_t len, const char *with) {
    return len >= strlen(with) && memcmp(line, with, strlen(with)) == 0;
}

static void read_line(struct one *one, const char *file, const uint8_t *line, size_t len, size_t counts[2]) {
    char words[256];
    snprintf(words, sizeof words, "%.*s", (int)len, (const char *)line);
    if (begins(line, len, "case ")) {
        finish(one, file, counts);
        begin(one, words + strlen("case "));
    } else if (begins(line, len, "< ") || begins(line, len, "> ")) {
        struct text *text = line[0] == '<' ? &one->script : &one->report;
        text_bytes(text, line + 2, len - 2);
        text_bytes(text, "\n", 1);
    } else if (begins(line, len, "<|")) {
        text_bytes(&one->script, line + 2, len - 2);
    } else if (begins(line, len, "options ")) {
        options(one, words + strlen("options "));
    } else if (begins(line, len, "status ")) {
        one->status = atoi(words + strlen("status "));
    } else {
        one->is_bad = one->is_bad || len > 0;
    }
}

static bool play_file(const char *file, size_t counts[2]) {
    FILE *opened = fopen(file, "rb");
    struct text text = NO_TEXT;
    bool is_read = opened != NULL && text_read(&text, opened);
    if (opened != NULL) {
        fclose(opened);
    }
    struct one one = { 0 };
    for (size_t at = 0; is_read && at < text.len;) {
        const uint8_t *end = memchr(text.bytes + at, '\n', text.len - at);
        size_t len = end == NULL ? text.len - at : (size_t)(end - text.bytes) - at;
        read_line(&one, file, text.bytes + at, len, counts);
        at += len + 1;
    }
    finish(&one, file, counts);
    text_free(&one.script);
    text_free(&one.report);
    text_free(&text);
    return is_read;
}

int main(int argc, char **argv) {
    size_t wrong = 0;
    for (int i = 1; i < argc; i++) {
        size_t counts[2] = { 0, 0 };
        if (!play_file(argv[i], counts)) {
            fprintf(stderr, "corpus: %s cannot be read\n", argv[i]);
            return 2;
        }
        printf("%s: %zu right, %zu wrong\n", argv[i], counts[0], counts[1]);
        wrong += counts[1] + (counts[0] == 0 ? 1 : 0);
    }
    return wrong == 0 ? 0 : 1;
}
