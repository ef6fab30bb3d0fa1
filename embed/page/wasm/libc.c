/* What the library and the programs of the page ask of a C library beside a heap: memory, words and formats. */
#include <stdarg.h>
#include <stddef.h>
#include <stdint.h>
#include <stdio.h>
#include <stdlib.h>
#include <string.h>

/* WebAssembly has instructions for these three. */
void *memcpy(void *restrict to, const void *restrict from, size_t len) { return __builtin_memcpy(to, from, len); }
void *memmove(void *to, const void *from, size_t len) { return __builtin_memmove(to, from, len); }
void *memset(void *to, int byte, size_t len) { return __builtin_memset(to, byte, len); }

int memcmp(const void *a, const void *b, size_t len) {
    const unsigned char *x = a, *y = b;
    for (size_t at = 0; at < len; at++) {
        if (x[at] != y[at]) {
            return x[at] - y[at];
        }
    }
    return 0;
}

void *memchr(const void *a, int byte, size_t len) {
    const unsigned char *bytes = a;
    for (size_t at = 0; at < len; at++) {
        if (bytes[at] == (unsigned char)byte) {
            return (void *)&bytes[at];
        }
    }
    return NULL;
}

size_t strlen(const char *a) {
    size_t len = 0;
    while (a[len] != '\0') {
        len++;
    }
    return len;
}

size_t strcspn(const char *a, const char *ends) {
    size_t len = 0;
    while (a[len] != '\0' && memchr(ends, a[len], strlen(ends)) == NULL) {
        len++;
    }
    return len;
}

int strcmp(const char *a, const char *b) {
    for (; *a != '\0' && *a == *b; a++, b++) {
    }
    return (unsigned char)*a - (unsigned char)*b;
}

/* Of the options of a player, which the page does not read. */
unsigned long strtoul(const char *a, char **end, int base) {
    (void)base;
    *end = (char *)a;
    return 0;
}

/* A text of which what has room is written. */
struct room {
    char *to;
    size_t room, len;
};

static void put(struct room *room, char byte) {
    if (room->len < room->room) {
        room->to[room->len] = byte;
    }
    room->len++;
}

static void put_number(struct room *room, uint64_t value) {
    if (value >= 10) {
        put_number(room, value / 10);
    }
    put(room, (char)('0' + value % 10));
}

/* The formats are those of the files that are compiled here: %s %u %llu %zu %%. */
int vsnprintf(char *to, size_t size, const char *format, va_list given) {
    struct room room = { to, size == 0 ? 0 : size - 1, 0 };
    for (; *format != '\0'; format++) {
        if (*format != '%') {
            put(&room, *format);
            continue;
        }
        int is_long = 0;
        for (format++; *format == 'l' || *format == 'z'; format++) {
            is_long = 1;
        }
        if (*format == '%') {
            put(&room, '%');
        } else if (*format == 'u') {
            put_number(&room, is_long ? va_arg(given, uint64_t) : va_arg(given, uint32_t));
        } else if (*format == 's') {
            for (const char *at = va_arg(given, const char *); *at != '\0'; at++) {
                put(&room, *at);
            }
        } else {
            __builtin_trap();
        }
    }
    if (size > 0) {
        to[room.len < room.room ? room.len : room.room] = '\0';
    }
    return (int)room.len;
}
