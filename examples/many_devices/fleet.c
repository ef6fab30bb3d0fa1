#include "fleet.h"

#include <stdlib.h>
#include <string.h>
#include <time.h>

/* A line for one device, and its answer. With it the device's worker, which first gets buffers for so many packets; the trial has none. */
struct command {
    const char *line;
    struct worker *worker;
    uint64_t packets;
    qtree_code code;
    qtree_fault fault;
};

/* A place at one device, and what was counted there. */
struct counted {
    uint32_t place;
    uint16_t major, minor;
    qtree_code code;
    qtree_row row;
};

qtree_code fleet_open(struct fleet *fleet, size_t count) {
    *fleet = (struct fleet){ .trial = QTREE_CLOSED };
    if (count < 1 || count > WORKERS_MOST) {
        return QTREE_OUT_OF_RANGE;
    }
    fleet->workers = aligned_alloc(APART, count * sizeof *fleet->workers);
    qtree_code code = fleet->workers == NULL ? QTREE_MEMORY : qtree_open(&fleet->trial, &(qtree_settings){ .txqueuelen = 1000, .mtu = 1514 });
    while (code == QTREE_DONE && fleet->count < count) {
        code = worker_open(&fleet->workers[fleet->count], (uint32_t)fleet->count);
        fleet->count++;
    }
    return code;
}

bool fleet_start(struct fleet *fleet) {
    atomic_store(&workers_stop, false);
    for (size_t i = 0; i < fleet->count; i++) {
        if (!worker_start(&fleet->workers[i])) {
            atomic_store(&workers_stop, true);
            while (i-- > 0) {
                pthread_join(fleet->workers[i].thread, NULL);
            }
            return false;
        }
    }
    fleet->is_running = true;
    return true;
}

void fleet_stop(struct fleet *fleet) {
    atomic_store(&workers_stop, true);
    for (size_t i = 0; fleet->is_running && i < fleet->count; i++) {
        pthread_join(fleet->workers[i].thread, NULL);
    }
    fleet->is_running = false;
}

void fleet_close(struct fleet *fleet) {
    for (size_t i = 0; i < fleet->count; i++) {
        worker_close(&fleet->workers[i]);
    }
    qtree_close(&fleet->trial);
    free(fleet->workers);
}

/* On the thread of the worker, and where none runs on this one. */
static void ask(struct fleet *fleet, struct worker *worker, question_fn *question, void *about) {
    if (fleet->is_running) {
        mailbox_ask(&worker->mailbox, question, about);
    } else {
        question(&worker->device, about);
    }
}

static void play(qtree_device *device, void *about) {
    struct command *command = about;
    const uint8_t *line = (const uint8_t *)command->line;
    if (command->worker != NULL && !worker_reserve(command->worker, command->packets)) {
        command->code = QTREE_MEMORY;
        return;
    }
    command->code = qtree_command(device, line, strlen(command->line), now_ns(), &command->fault);
}

qtree_code fleet_command(struct fleet *fleet, const char *line, qtree_fault *fault) {
    struct command command = { .line = line };
    play(&fleet->trial, &command);
    *fault = command.fault;
    qtree_code answer = command.code;
    qtree_most_packets(&fleet->trial, &command.packets);
    for (size_t i = 0; answer == QTREE_DONE && i < fleet->count; i++) {
        command.worker = &fleet->workers[i];
        ask(fleet, &fleet->workers[i], play, &command);
        while (command.code == QTREE_MEMORY) {
            nanosleep(&(struct timespec){ .tv_nsec = 1000000 }, NULL);
            ask(fleet, &fleet->workers[i], play, &command);
        }
        if (command.code != QTREE_DONE) {
            abort(); /* the trees were not the same */
        }
    }
    return answer;
}

static void read_row(qtree_device *device, void *about) {
    struct counted *counted = about;
    counted->code = qtree_stats(device, counted->place, counted->major, counted->minor, &counted->row);
}

static void add(qtree_count *sum, qtree_count count) {
    sum->packets += count.packets;
    sum->bytes += count.bytes;
}

qtree_code fleet_stats(struct fleet *fleet, uint32_t place, uint16_t major, uint16_t minor, qtree_row *sum) {
    struct counted counted = { .place = place, .major = major, .minor = minor };
    *sum = (qtree_row){ 0 };
    read_row(&fleet->trial, &counted);
    for (size_t i = 0; counted.code == QTREE_DONE && i < fleet->count; i++) {
        ask(fleet, &fleet->workers[i], read_row, &counted);
        add(&sum->arrived, counted.row.arrived);
        add(&sum->sent, counted.row.sent);
        add(&sum->refused, counted.row.refused);
        add(&sum->dropped, counted.row.dropped);
        add(&sum->queued, counted.row.queued);
        add(&sum->marked, counted.row.marked);
    }
    return counted.code;
}
