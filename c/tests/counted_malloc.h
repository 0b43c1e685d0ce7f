/* `memory.c` over stand-ins for malloc, realloc, free and madvise, which count, refuse and note. */
#ifndef COUNTED_MALLOC_H
#define COUNTED_MALLOC_H
#include <stdatomic.h>
#include <stdint.h>
#include <stdlib.h>
#include <sys/mman.h>

static _Thread_local long mallocs_left = -1;
static _Thread_local size_t largest_malloc = SIZE_MAX;
/* How many blocks of malloc are in use, and how many regions were allocated. */
static atomic_long in_use, regions_made;

static void *malloc_or_none(size_t size) {
    if (mallocs_left == 0 || size > largest_malloc) {
        return NULL;
    }
    mallocs_left -= mallocs_left > 0;
    void *block = malloc(size);
    in_use += block != NULL;
    regions_made += block != NULL && size == (32 << 20) + (2 << 20);
    return block;
}

static void free_counted(void *block) {
    in_use -= block != NULL;
    free(block);
}

static void *realloc_or_none(void *block, size_t size) { return mallocs_left == 0 ? NULL : realloc(block, size); }

/* What was said of pages since `advices` was set to 0. */
struct advice {
    char *at;
    size_t size;
    int about;
};
static _Thread_local struct advice advised[4];
static _Thread_local size_t advices;

static int noted(void *at, size_t size, int about) {
    if (advices < sizeof advised / sizeof *advised) {
        advised[advices] = (struct advice){at, size, about};
    }
    advices++;
    return madvise(at, size, about);
}

#define malloc malloc_or_none
#define realloc realloc_or_none
#define free free_counted
#define madvise noted
#include "../memory.c"
#undef malloc
#undef realloc
#undef free
#undef madvise
#endif
