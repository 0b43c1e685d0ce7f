/* Puts whose tries are all held: a list allocates in its turn, and there another handle puts. Under callgrind, which counts the instructions of
 * `put_while_held` alone, the counts say how many tries were made. Linked with --wrap.
 *
 * usage: tries [TRIES]     none: three tries */
#include "cefrodil.h"
#include "must.h"
#include <stdlib.h>

enum { KEYS = 100, ENTRY = 2 };

void *__real_malloc(size_t size);
void *__real_realloc(void *block, size_t size);
void __real_free(void *block);

static cefrodil_handle handles[2];
static uint32_t tries;
static bool is_listing;
static int calls;

__attribute__((noinline)) static void put_while_held(void) {
    cefrodil_reply reply;
    uint64_t value = 7;
    calls++;
    MUST(cefrodil_put_within(&handles[1], tries, 1, &value, 1, &reply) == CEFRODIL_HELD);
}

void *__wrap_malloc(size_t size) {
    if (is_listing) {
        is_listing = false;
        put_while_held();
    }
    return __real_malloc(size);
}

void *__wrap_realloc(void *block, size_t size) {
    return __real_realloc(block, size);
}

void __wrap_free(void *block) {
    __real_free(block);
}

int main(int argc, char **argv) {
    static uint64_t list[KEYS * ENTRY];
    cefrodil_shape shape;
    cefrodil_reply reply;
    uint64_t count = 0, value = 5;
    tries = argc > 1 ? (uint32_t)strtoul(argv[1], NULL, 10) : 3;
    MUST(cefrodil_shape_for_items(KEYS, 1, &shape) == CEFRODIL_OK && cefrodil_open(&shape, 1, 1, handles, 2) == CEFRODIL_OK);
    MUST(cefrodil_put(&handles[0], 2, &value, 1, &reply) == CEFRODIL_OK);
    is_listing = true;
    MUST(cefrodil_entries(&handles[0], list, KEYS * ENTRY, &count) == CEFRODIL_OK && count == 1 && calls == 1);
    MUST(cefrodil_close(&handles[0]) == CEFRODIL_OK && cefrodil_close(&handles[1]) == CEFRODIL_OK);
    return outcome("tries");
}
