/* The slots in which the bytes of frames lie. */
#include "wire.h"

#include <stdlib.h>
#include <sys/mman.h>

bool pool_open(struct pool *pool, size_t size, size_t slot, uint8_t *area) {
    *pool = (struct pool){ .area = area, .size = size, .slot = slot };
    pool->frames = calloc(size, sizeof *pool->frames);
    pool->unused = calloc(size, sizeof *pool->unused);
    if (area == NULL) {
        int flags = MAP_PRIVATE | MAP_ANONYMOUS | MAP_NORESERVE;
        pool->area = mmap(NULL, size * slot, PROT_READ | PROT_WRITE, flags, -1, 0);
    }
    return pool->frames != NULL && pool->unused != NULL && pool->area != MAP_FAILED;
}

void pool_close(struct pool *pool, bool has_own_area) {
    free(pool->frames);
    free(pool->unused);
    if (has_own_area && pool->area != NULL && pool->area != MAP_FAILED) {
        munmap(pool->area, pool->size * pool->slot);
    }
    *pool = (struct pool){ 0 };
}

bool pool_take(struct pool *pool, uint32_t *buf) {
    if (pool->unused_count > 0) {
        *buf = pool->unused[--pool->unused_count];
        return true;
    }
    if (pool->fresh < pool->size) {
        *buf = (uint32_t)pool->fresh++;
        return true;
    }
    return false;
}

void pool_give(struct pool *pool, uint32_t buf) { pool->unused[pool->unused_count++] = buf; }
