/* Text that grows, as a report or a file does. */
#ifndef TEXT_H
#define TEXT_H

#include <stdbool.h>
#include <stddef.h>
#include <stdint.h>
#include <stdio.h>

struct text {
    uint8_t *bytes;
    size_t len;
    size_t room;
    bool is_short; /* an allocation failed, and a part of the text is missing */
};
#define NO_TEXT { NULL, 0, 0, false }

/* Makes room for so many bytes more at the end, and returns where they begin; NULL if an allocation fails. */
uint8_t *text_room(struct text *text, size_t more);
void text_bytes(struct text *text, const void *bytes, size_t len);
void text_format(struct text *text, const char *format, ...) __attribute__((format(printf, 2, 3)));
/* Reads a whole file; false if it cannot be read or an allocation fails. */
bool text_read(struct text *text, FILE *file);
void text_free(struct text *text);

#endif
