#include "mailbox.h"

void mailbox_open(struct mailbox *mailbox) {
    atomic_init(&mailbox->is_full, false);
    pthread_mutex_init(&mailbox->mutex, NULL);
    pthread_cond_init(&mailbox->answered, NULL);
}

void mailbox_close(struct mailbox *mailbox) {
    pthread_cond_destroy(&mailbox->answered);
    pthread_mutex_destroy(&mailbox->mutex);
}

void mailbox_ask(struct mailbox *mailbox, question_fn *question, void *about) {
    pthread_mutex_lock(&mailbox->mutex);
    mailbox->question = question;
    mailbox->about = about;
    atomic_store_explicit(&mailbox->is_full, true, memory_order_relaxed);
    while (atomic_load_explicit(&mailbox->is_full, memory_order_relaxed)) {
        pthread_cond_wait(&mailbox->answered, &mailbox->mutex);
    }
    pthread_mutex_unlock(&mailbox->mutex);
}

void mailbox_answer(struct mailbox *mailbox, qtree_device *device) {
    pthread_mutex_lock(&mailbox->mutex);
    mailbox->question(device, mailbox->about);
    atomic_store_explicit(&mailbox->is_full, false, memory_order_relaxed);
    pthread_cond_signal(&mailbox->answered);
    pthread_mutex_unlock(&mailbox->mutex);
}
