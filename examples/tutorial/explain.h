/* Says why a line of tc was not carried out. */
#ifndef EXPLAIN_H
#define EXPLAIN_H

#include "qtree.h"

#include <stdio.h>

/* Prints the line, a mark under the word at which it failed, and a sentence on what to do. */
static inline void explain(const char *line, size_t len, uint64_t number, qtree_code code, const qtree_fault *fault) {
    uint8_t text[1000];
    size_t needed;
    if (qtree_explain((const uint8_t *)line, len, number, code, fault, text, sizeof text, &needed) == QTREE_DONE) {
        fwrite(text, 1, needed, stdout);
    } else {
        puts(qtree_code_sentence(code));
    }
}

#endif
