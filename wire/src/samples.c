#include "samples.h"

#include <stdio.h>
#include <stdlib.h>
#include <string.h>

/* Copies as much as there is room for. */
static void put(char *to, size_t room, const char *text) {
    size_t len = strnlen(text, room - 1);
    memcpy(to, text, len);
    to[len] = '\0';
}

/* A line is NAME{device="DEVICE",MORE} VALUE. */
static bool read_sample(struct sample *sample, const char *line, size_t len) {
    char copy[320];
    if (len == 0 || len >= sizeof copy || line[0] == '#') {
        return false;
    }
    memcpy(copy, line, len);
    copy[len] = '\0';
    char *labels = strstr(copy, "{device=\""), *end = strrchr(copy, '}');
    char *device_end = labels == NULL ? NULL : strchr(labels + 9, '"');
    if (device_end == NULL || end == NULL || end < device_end) {
        return false;
    }
    *labels = *device_end = *end = '\0';
    put(sample->name, sizeof sample->name, copy);
    put(sample->device, sizeof sample->device, labels + 9);
    put(sample->labels, sizeof sample->labels, device_end + 1 < end ? device_end + 2 : "");
    sample->value = strtod(end + 1, NULL);
    return true;
}

bool samples_read(struct samples *samples, const char *text) {
    size_t room = 0;
    *samples = (struct samples){ NULL, 0 };
    while (*text != '\0') {
        size_t len = strcspn(text, "\n");
        if (samples->count == room) {
            room = room == 0 ? 256 : room * 2;
            struct sample *more = realloc(samples->all, room * sizeof *more);
            if (more == NULL) {
                samples_free(samples);
                return false;
            }
            samples->all = more;
        }
        samples->count += read_sample(&samples->all[samples->count], text, len);
        text += len + (text[len] == '\n');
    }
    return true;
}

void samples_free(struct samples *samples) {
    free(samples->all);
    *samples = (struct samples){ NULL, 0 };
}

double samples_value(const struct samples *samples, const char *name, const char *device, const char *labels, double none) {
    for (size_t i = 0; i < samples->count; i++) {
        const struct sample *it = &samples->all[i];
        if (strcmp(it->name, name) == 0 && strcmp(it->device, device) == 0 && strcmp(it->labels, labels) == 0) {
            return it->value;
        }
    }
    return none;
}
