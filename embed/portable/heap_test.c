/* The heap of the portable library, call by call: what is larger or smaller keeps its bytes, and each place is aligned and large enough. The
 * sanitizer and valgrind see what is read or written beside a place, and what is never given back. */
#include "heap.c"

#include <stdio.h>

#define CHECK(holds) ((holds) ? (void)0 : fail(__LINE__, #holds))

_Noreturn static void fail(int line, const char *what) {
    fprintf(stderr, "heap_test.c:%d: %s does not hold\n", line, what);
    exit(1);
}

static void fill(void *at, uint64_t size, unsigned char with) { memset(at, with, size); }

static void is_filled(const unsigned char *at, uint64_t size, unsigned char with) {
    for (uint64_t i = 0; i < size; i++) {
        CHECK(at[i] == with);
    }
}

static void *made(uint64_t size, uint64_t align) {
    memory it = rattle_alloc(size, align);
    CHECK(it.is_there == 1 && (uintptr_t)it.at % align == 0);
    fill(it.at, size != 0 ? size : align, 0x5a);
    return it.at;
}

/* A place is made larger or smaller, and its first bytes stay; the whole of the new place may be written. */
static void resized(uint64_t old, uint64_t size, uint64_t align) {
    void *at = made(old, align);
    memory it = rattle_realloc(at, old, size, align);
    CHECK(it.is_there == 1 && (uintptr_t)it.at % align == 0);
    is_filled(it.at, old < size ? old : size, 0x5a);
    fill(it.at, size != 0 ? size : align, 0xa5);
    rattle_dealloc(it.at);
}

/* What no machine has is refused: the answer says so, and where it points to may be taken for a place without bytes. */
static void refused(uint64_t align) {
    memory it = rattle_alloc(UINT64_C(1) << 62, align);
    CHECK(it.is_there == 0 && it.at != NULL);
    void *at = made(100, align);
    it = rattle_realloc(at, 100, UINT64_C(1) << 62, align);
    CHECK(it.is_there == 0 && it.at != NULL);
    is_filled(at, 100, 0x5a);
    rattle_dealloc(at);
}

int main(void) {
    for (uint64_t align = 1; align <= 4096; align *= 2) {
        for (uint64_t size = 0; size < 300; size += 7) {
            void *at[4];
            for (int i = 0; i < 4; i++) {
                at[i] = made(size, align);
            }
            for (int i = 0; i < 4; i++) {
                is_filled(at[i], size, 0x5a);
                rattle_dealloc(at[i]);
            }
            resized(size, 2 * size + 1, align);
            resized(size + 100, size, align);
            resized(size, 0, align);
        }
        refused(align);
    }
    return 0;
}
