/* Blocks of the archive's memory, each full of one byte, for tests of them. */
#ifndef FULL_BLOCKS_H
#define FULL_BLOCKS_H
#include "counted_malloc.h"
#include "must.h"
#include <string.h>

/* A block with the byte that it is full of. */
struct full {
    unsigned char *at;
    size_t size, align;
    unsigned char byte;
};

static _Thread_local uint64_t drawn = 88172645463325252;

static inline uint64_t draw(void) {
    drawn ^= drawn << 13, drawn ^= drawn >> 7, drawn ^= drawn << 17;
    return drawn;
}

static inline void fill(struct full *full) {
    full->byte = (unsigned char)draw();
    memset(full->at, full->byte, full->size);
}

/* Whether the first bytes are still there. Of a large block some are looked at, and the last one. */
static inline int holds(const struct full *full, size_t kept) {
    for (size_t n = 0; n < kept; n += kept / 64 + 1) {
        if (full->at[n] != full->byte) {
            return 0;
        }
    }
    return kept == 0 || full->at[kept - 1] == full->byte;
}

static inline int lies_right(const struct full *full) {
    uintptr_t at = (uintptr_t)full->at;
    if (full->align > 8) {
        return at % 16 == 0;
    }
    if (full->size == 0) {
        return full->at == no_bytes;
    }
    if (full->size < 4096) {
        return at % 16 == 8;
    }
    return at % (full->size < 8 << 20 ? 64 : 2 << 20) == 56;
}

static inline void make(struct full *full, size_t size, size_t align) {
    struct block made = rattle_alloc(size, align);
    MUST(made.there && made.at != NULL);
    *full = (struct full){made.at, size, align, 0};
    MUST(lies_right(full));
    fill(full);
}

/* A block that shrinks may be said to keep more bytes than it will have. */
static inline void resize(struct full *full, size_t size) {
    size_t kept = size < full->size ? size : full->size;
    struct block made = rattle_realloc(full->at, full->size, size, full->align);
    MUST(made.there);
    full->at = made.at, full->size = size;
    MUST(lies_right(full) && holds(full, kept));
    fill(full);
}

#endif
