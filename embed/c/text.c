#include "text.h"

#include <stdarg.h>
#include <stdlib.h>
#include <string.h>

uint8_t *text_room(struct text *text, size_t more) {
    if (text->room - text->len < more) {
        size_t room = 2 * text->room + more;
        uint8_t *bytes = realloc(text->bytes, room);
        if (bytes == NULL) {
            text->is_short = true;
            return NULL;
        }
        text->bytes = bytes;
        text->room = room;
    }
    return text->bytes + text->len;
}

void text_bytes(struct text *text, const void *bytes, size_t len) {
    uint8_t *end = len == 0 ? NULL : text_room(text, len);
    if (end != NULL) {
        memcpy(end, bytes, len);
        text->len += len;
    }
}

void text_format(struct text *text, const char *format, ...) {
    char line[512];
    va_list given;
    va_start(given, format);
    int len = vsnprintf(line, sizeof line, format, given);
    va_end(given);
    if (len < 0 || (size_t)len >= sizeof line) {
        text->is_short = true;
    } else {
        text_bytes(text, line, (size_t)len);
    }
}

bool text_read(struct text *text, FILE *file) {
    for (;;) {
        uint8_t *end = text_room(text, 65536);
        if (end == NULL) {
            return false;
        }
        size_t len = fread(end, 1, 65536, file);
        text->len += len;
        if (len == 0) {
            return ferror(file) == 0;
        }
    }
}

void text_free(struct text *text) {
    free(text->bytes);
    *text = (struct text)NO_TEXT;
}
