/* Qdiscs and classes are read one by one, until there are no more. */
#include "tree.h"

#include <stdlib.h>

/* The classes of the index-th qdisc, behind those that the tree has; the room doubles where it is full. */
static bool read_classes(struct tree *tree, size_t *room, const qtree_device *device, size_t index) {
    qtree_class_view class;
    for (size_t which = 0; qtree_class(device, index, which, &class) == QTREE_DONE; which++) {
        if (tree->class_count == *room) {
            size_t more = *room == 0 ? 16 : *room * 2;
            qtree_class_view *classes = realloc(tree->classes, more * sizeof *classes);
            if (classes == NULL) {
                return false;
            }
            tree->classes = classes;
            *room = more;
        }
        tree->classes[tree->class_count++] = class;
    }
    return true;
}

/* How long the oldest packet in a place has waited. */
static uint64_t wait_at(const qtree_device *device, uint32_t place, uint16_t major, uint16_t minor, uint64_t now) {
    uint64_t since;
    if (qtree_oldest(device, place, major, minor, &since) != QTREE_DONE) {
        return NOBODY_WAITS;
    }
    return now > since ? now - since : 0;
}

qtree_code tree_read(struct tree *tree, const qtree_device *device, uint64_t now) {
    size_t room = 0;
    tree->classes = NULL;
    tree->qdisc_count = tree->class_count = 0;
    if (qtree_totals(device, &tree->device) != QTREE_DONE) {
        return QTREE_IS_CLOSED;
    }
    tree->device_wait = wait_at(device, QTREE_TOP, 0, 0, now);
    for (size_t index = 0; index < MOST_QDISCS && qtree_node(device, index, &tree->qdiscs[index]) == QTREE_DONE; index++) {
        const qtree_node_view *qdisc = &tree->qdiscs[index];
        tree->waits[index] = wait_at(device, qdisc->place, qdisc->parent_major, qdisc->parent_minor, now);
        tree->qdisc_count++;
        if (qdisc->kind == QTREE_DRR && !read_classes(tree, &room, device, index)) {
            return QTREE_MEMORY;
        }
    }
    return QTREE_DONE;
}

void tree_free(struct tree *tree) { free(tree->classes); }
