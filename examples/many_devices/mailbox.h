/* A mailbox by which one thread asks another to do something with its device. A question waits until that thread checks for it, between
 * two bursts.
 *
 * The thread that has the device reads a flag and goes on; it takes a lock only for a question. A spin lock around each burst would be
 * free for so short a time that the thread that asks, which sleeps and wakes, would get it late or never. */
#ifndef MAILBOX_H
#define MAILBOX_H

#include "qtree.h"

#include <pthread.h>
#include <stdatomic.h>

/* Data that two threads write are this many bytes apart: two cache lines, since processors fetch them in pairs. */
#define APART 128

/* What is done with the device, on the thread that has it. */
typedef void question_fn(qtree_device *device, void *about);

struct mailbox {
    _Alignas(APART) atomic_bool is_full;
    _Alignas(APART) pthread_mutex_t mutex;
    pthread_cond_t answered;
    question_fn *question;
    void *about;
};

void mailbox_open(struct mailbox *mailbox);
void mailbox_close(struct mailbox *mailbox);

/* Asks a question and waits for the answer. One thread at a time asks, while the other one still checks for questions. */
void mailbox_ask(struct mailbox *mailbox, question_fn *question, void *about);

/* Answers the question that waits. */
void mailbox_answer(struct mailbox *mailbox, qtree_device *device);

/* What the thread that has the device calls between bursts. */
static inline void mailbox_look(struct mailbox *mailbox, qtree_device *device) {
    if (atomic_load_explicit(&mailbox->is_full, memory_order_relaxed)) {
        mailbox_answer(mailbox, device);
    }
}

#endif
