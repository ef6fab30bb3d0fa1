#include "lines.h"

#include <errno.h>
#include <stdlib.h>
#include <string.h>

enum { MOST_BYTES = 1 << 20 };
static const char blanks[] = " \t\r";

char *lines_read(const char *name, FILE *says) {
    FILE *file = fopen(name, "r");
    char *text = calloc(1, MOST_BYTES + 1);
    if (file == NULL || text == NULL) {
        fprintf(says, "%s: %s\n", name, strerror(errno));
    } else {
        size_t len = fread(text, 1, MOST_BYTES + 1, file);
        if (len <= MOST_BYTES && ferror(file) == 0 && memchr(text, 0, len) == NULL) {
            text[len] = '\0';
            fclose(file);
            return text;
        }
        fprintf(says, "%s: %s\n", name,
                ferror(file) != 0  ? strerror(errno)
                : len > MOST_BYTES ? "it has more than 1 MiB"
                                   : "it has a zero byte");
    }
    if (file != NULL) {
        fclose(file);
    }
    free(text);
    return NULL;
}

/* The next word of a line, which ends before `end`; its length, or 0 at the end. */
static size_t next_word(const char **at, const char *end) {
    while (*at < end && strchr(blanks, **at) != NULL) {
        (*at)++;
    }
    size_t len = 0;
    while (*at + len < end && strchr(blanks, (*at)[len]) == NULL) {
        len++;
    }
    return len;
}

static bool is_blank(const char *line, const char *end) { return next_word(&line, end) == 0 || *line == '#'; }

/* The card of a line: the word behind `dev`. */
static size_t card_of(const char *line, const char *end, const char **card) {
    for (size_t len; (len = next_word(&line, end)) > 0; line += len) {
        if (len == 3 && memcmp(line, "dev", 3) == 0) {
            *card = line + len;
            return next_word(card, end);
        }
    }
    return 0;
}

static bool is_name(const char *name, const char *card, size_t len) { return strlen(name) == len && memcmp(name, card, len) == 0; }

char *lines_for(const char *text, const char *name) {
    char *lines = malloc(strlen(text) + 1), *put = lines;
    for (const char *line = text; lines != NULL && *line != '\0';) {
        const char *end = line + strcspn(line, "\n"), *card;
        size_t len = is_blank(line, end) ? 0 : card_of(line, end, &card);
        if (len > 0 && is_name(name, card, len)) {
            memcpy(put, line, (size_t)(end - line));
            put += end - line;
        }
        if (*end == '\n') {
            *put++ = *end++;
        }
        line = end;
    }
    if (lines != NULL) {
        *put = '\0';
    }
    return lines;
}

bool lines_fit(const char *file, const char *text, const char *left, const char *right, FILE *says) {
    bool do_fit = true;
    size_t number = 1;
    for (const char *line = text; *line != '\0'; number++) {
        const char *end = line + strcspn(line, "\n"), *card;
        size_t len = is_blank(line, end) ? 0 : card_of(line, end, &card);
        if (!is_blank(line, end) && len == 0) {
            fprintf(says, "%s:%zu: the line has no `dev %s` or `dev %s`: %.*s\n", file, number, left, right, (int)(end - line), line);
            do_fit = false;
        } else if (len > 0 && !is_name(left, card, len) && !is_name(right, card, len)) {
            fprintf(says, "%s:%zu: the card is neither %s nor %s: %.*s\n", file, number, left, right, (int)(end - line), line);
            do_fit = false;
        }
        line = end + (*end == '\n');
    }
    return do_fit;
}

int lines_cards(const char *text, char names[3][64]) {
    int count = 0;
    for (const char *line = text; *line != '\0' && count < 3;) {
        const char *end = line + strcspn(line, "\n"), *card;
        size_t len = is_blank(line, end) ? 0 : card_of(line, end, &card);
        bool is_known = len == 0 || len >= 64;
        for (int i = 0; i < count; i++) {
            is_known = is_known || is_name(names[i], card, len);
        }
        if (!is_known) {
            memcpy(names[count], card, len);
            names[count++][len] = '\0';
        }
        line = end + (*end == '\n');
    }
    return count;
}
