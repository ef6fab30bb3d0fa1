/* The heap of the page. Blocks have four sizes to each doubling, with a list of free ones for each; a block keeps its size, and none is
 * joined with another. Memory is taken from the browser and never given back. */
#include <stddef.h>
#include <stdint.h>
#include <stdlib.h>
#include <string.h>

enum { SIZES = 4 * 40, HEAD = 16, PAGE = 16 };
static const size_t LARGEST = (size_t)1 << 40, LEAST_GROWTH = 64;

struct block {
    size_t size; /* the index of its size */
    struct block *next;
};

extern unsigned char __heap_base;
static uintptr_t top, end;
static struct block *spare[SIZES];

/* 16, 20, 24, 28, 32, 40 and so on. */
static size_t bytes_of(size_t size) { return (4 + size % 4) << (size / 4 + 2); }

/* The first size that has room for so many bytes. */
static size_t size_for(size_t bytes) {
    if (bytes <= 16) {
        return 0;
    }
    size_t log = 63 - (size_t)__builtin_clzl(bytes - 1);
    return (log - 4) * 4 + (((bytes - 1) >> (log - 2)) & 3) + 1;
}

/* Memory that was never used; NULL if the browser has no more. */
static struct block *fresh(size_t bytes) {
    if (top == 0) {
        top = ((uintptr_t)&__heap_base + HEAD - 1) & ~(uintptr_t)(HEAD - 1);
        end = __builtin_wasm_memory_size(0) << PAGE;
    }
    if (top + bytes > end) {
        size_t pages = (top + bytes - end + ((size_t)1 << PAGE) - 1) >> PAGE;
        pages = pages > LEAST_GROWTH ? pages : LEAST_GROWTH;
        if (__builtin_wasm_memory_grow(0, pages) == (size_t)-1) {
            return NULL;
        }
        end += pages << PAGE;
    }
    struct block *block = (struct block *)top;
    top += bytes;
    return block;
}

void *malloc(size_t bytes) {
    if (bytes > LARGEST) {
        return NULL;
    }
    size_t size = size_for(bytes);
    struct block *block = spare[size];
    if (block != NULL) {
        spare[size] = block->next;
    } else {
        block = fresh(HEAD + ((bytes_of(size) + HEAD - 1) & ~(size_t)(HEAD - 1)));
        if (block == NULL) {
            return NULL;
        }
        block->size = size;
    }
    return (unsigned char *)block + HEAD;
}

void free(void *at) {
    if (at != NULL) {
        struct block *block = (struct block *)((unsigned char *)at - HEAD);
        block->next = spare[block->size];
        spare[block->size] = block;
    }
}

void *realloc(void *at, size_t bytes) {
    size_t had = at == NULL ? 0 : bytes_of(((struct block *)((unsigned char *)at - HEAD))->size);
    if (at != NULL && bytes <= had) {
        return at;
    }
    void *made = malloc(bytes);
    if (made != NULL && at != NULL) {
        memcpy(made, at, had);
        free(at);
    }
    return made;
}

/* Nothing here needs more than 16 bytes. */
void *aligned_alloc(size_t align, size_t bytes) { return align <= HEAD ? malloc(bytes) : NULL; }
