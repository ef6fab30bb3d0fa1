/* The heap of libqtree over the C library's. */
#include <stddef.h>
#include <stdint.h>
#include <stdlib.h>
#include <string.h>

/* By this name a program finds that the library is not, to the byte, what the kit built of what it proved. */
#ifdef QTREE_REWRITTEN
const char qtree_rewritten[] = QTREE_REWRITTEN;
#endif

typedef struct {
    uint64_t is_there;
    void *at;
} memory;

static char nothing;

static memory answer(void *at) { return (memory){ at != NULL, at != NULL ? at : &nothing }; }

static int is_plain(uint64_t align) { return align <= _Alignof(max_align_t); }

memory rattle_alloc(uint64_t size, uint64_t align) {
    size = size != 0 ? size : align;
    return answer(is_plain(align) ? malloc(size) : aligned_alloc(align, (size + align - 1) / align * align));
}

memory rattle_realloc(void *at, uint64_t old, uint64_t size, uint64_t align) {
    if (is_plain(align)) {
        return answer(realloc(at, size != 0 ? size : align));
    }
    memory made = rattle_alloc(size, align);
    if (made.is_there != 0) {
        memcpy(made.at, at, old < size ? old : size);
        free(at);
    }
    return made;
}

void rattle_dealloc(void *at) { free(at); }
