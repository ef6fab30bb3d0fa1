#include "control.h"

#include "answers.h"
#include "setup.h"

#include <errno.h>
#include <stdlib.h>
#include <string.h>
#include <sys/socket.h>
#include <sys/stat.h>
#include <sys/time.h>
#include <sys/un.h>
#include <unistd.h>

#define FOLDER "/run/qtree-wire"
enum { WORD = 64, CLIENTS = 4 };

static void reload(struct wire *wire, FILE *file) { fputs(setup_load(wire, true, file) ? "done\n" : "", file); }

static const struct {
    const char *word;
    void (*answer)(struct wire *wire, FILE *file);
} answers[] = {
    { "show", answer_show },       { "counts", answer_counts }, { "promise", answer_promise },
    { "metrics", answer_metrics }, { "status", answer_status }, { "reload", reload },
};

bool control_path(char path[CONTROL_PATH], const char *name) {
    const char *form = strchr(name, '/') != NULL ? "%s" : FOLDER "/%s/socket";
    int len = snprintf(path, CONTROL_PATH, form, name);
    if (len >= 0 && len < CONTROL_PATH) {
        return true;
    }
    fprintf(stderr, "qtree-wire: the name is too long: %s\n", name);
    return false;
}

static int connect_to(const char *name, struct sockaddr_un *at) {
    int fd = socket(AF_UNIX, SOCK_STREAM | SOCK_CLOEXEC, 0);
    *at = (struct sockaddr_un){ .sun_family = AF_UNIX };
    if (fd < 0 || !control_path(at->sun_path, name) || connect(fd, (struct sockaddr *)at, sizeof *at) != 0) {
        int error = errno;
        if (fd >= 0) {
            close(fd);
        }
        errno = error;
        return -1;
    }
    return fd;
}

/* Makes the folders of the path. */
static void make_folders(const char *path) {
    char folder[CONTROL_PATH];
    for (size_t i = 1; path[i] != '\0'; i++) {
        if (path[i] == '/') {
            memcpy(folder, path, i);
            folder[i] = '\0';
            mkdir(folder, 0755);
        }
    }
}

int control_listen(const char *name) {
    struct sockaddr_un at;
    int taken = connect_to(name, &at), fd = socket(AF_UNIX, SOCK_STREAM | SOCK_CLOEXEC, 0);
    if (taken >= 0) {
        close(taken);
        close(fd);
        fprintf(stderr, "qtree-wire: a program with the name %s runs already\n", name);
        return -1;
    }
    make_folders(at.sun_path);
    unlink(at.sun_path);
    mode_t before = umask(0077);
    bool is_bound = fd >= 0 && bind(fd, (struct sockaddr *)&at, sizeof at) == 0 && listen(fd, CLIENTS) == 0;
    umask(before);
    if (!is_bound) {
        fprintf(stderr, "qtree-wire: %s: %s\n", at.sun_path, strerror(errno));
    }
    return is_bound ? fd : -1;
}

void control_close(const char *name, int listener) {
    char path[CONTROL_PATH];
    if (listener >= 0 && control_path(path, name)) {
        close(listener);
        unlink(path);
    }
}

static void answer(struct wire *wire, const char *asked, FILE *file) {
    for (size_t i = 0; i < sizeof answers / sizeof answers[0]; i++) {
        if (strcmp(asked, answers[i].word) == 0) {
            answers[i].answer(wire, file);
            return;
        }
    }
    fprintf(file, "no such question: %s; ask show, counts, promise, metrics, status or reload\n", asked);
}

/* A client that neither asks nor reads is given a second. */
void control_answer(struct wire *wire, int listener) {
    char asked[WORD] = "";
    int fd = accept4(listener, NULL, NULL, SOCK_CLOEXEC);
    if (fd < 0) {
        return;
    }
    struct timeval second = { .tv_sec = 1 };
    setsockopt(fd, SOL_SOCKET, SO_RCVTIMEO, &second, sizeof second);
    setsockopt(fd, SOL_SOCKET, SO_SNDTIMEO, &second, sizeof second);
    FILE *file = recv(fd, asked, sizeof asked - 1, 0) > 0 ? fdopen(fd, "w") : NULL;
    if (file == NULL) {
        close(fd);
        return;
    }
    asked[strcspn(asked, "\r\n")] = '\0';
    answer(wire, asked, file);
    fclose(file);
}

char *control_read(const char *name, const char *asked) {
    struct sockaddr_un at;
    int fd = connect_to(name, &at);
    if (fd < 0) {
        fprintf(stderr, "qtree-wire: no program answers at %s: %s\n", at.sun_path, strerror(errno));
        return NULL;
    }
    char *text = NULL, part[4096];
    size_t len = 0;
    FILE *memory = open_memstream(&text, &len);
    ssize_t got = memory != NULL ? send(fd, asked, strlen(asked), MSG_NOSIGNAL) : -1;
    while (got > 0 && (got = recv(fd, part, sizeof part, 0)) > 0) {
        fwrite(part, 1, (size_t)got, memory);
    }
    if (memory != NULL) {
        fclose(memory);
    }
    close(fd);
    return text;
}

int control_ask(const char *name, const char *asked) {
    char *text = control_read(name, asked);
    if (text == NULL) {
        return 1;
    }
    fputs(text, stdout);
    size_t len = strlen(text);
    bool is_done = strcmp(asked, "reload") != 0 || (len >= 5 && strcmp(text + len - 5, "done\n") == 0);
    free(text);
    return is_done ? 0 : 1;
}
