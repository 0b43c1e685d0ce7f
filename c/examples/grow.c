/* A cache that grows, so that it evicts nothing: before it is full, a larger one takes over its entries. Its handle holds the turns, so nothing
 * is written between the list and the end of the old cache. Other handles of that could look up until it ends: give their threads handles of the
 * new one. Reads as C and as C++. */
#include "cefrodil.h"
#include <stdio.h>
#include <stdlib.h>

enum { KEYS = 50000, ENTRY = 2 };

static void must(uint32_t status, const char *what) {
    if (status != CEFRODIL_OK) {
        fprintf(stderr, "%s: %s\n", what, cefrodil_text(status));
        exit(1);
    }
}

static void *memory(size_t size) {
    void *block = malloc(size);
    must(block != NULL ? CEFRODIL_OK : CEFRODIL_NO_MEMORY, "malloc");
    return block;
}

static uint64_t number(cefrodil_status (*call)(cefrodil_handle *, uint64_t *), cefrodil_handle *handle) {
    uint64_t result = 0;
    must(call(handle, &result), "number");
    return result;
}

/* Opens a cache for `items` items with these entries, by a handle that holds. False if one of them finds no place in it. */
static bool opens(cefrodil_handle *handle, uint64_t items, const uint64_t *entries, uint64_t count) {
    cefrodil_status *statuses = (cefrodil_status *)memory((count + 1) * sizeof *statuses);
    cefrodil_shape shape;
    bool all = true;
    must(cefrodil_shape_for_items((uint32_t)items, 1, &shape), "shape");
    must(cefrodil_open_with(&shape, 1, 1, entries, ENTRY * count, statuses, count, handle, 1), "open");
    must(cefrodil_hold(handle), "hold");
    for (uint64_t i = 0; i < count; i++) {
        all = all && statuses[i] == CEFRODIL_OK;
    }
    free(statuses);
    return all;
}

/* Moves all entries to a cache of twice the size, or of four times, until each has a place there. */
static void grow(cefrodil_handle *handle) {
    uint64_t items = 2 * number(cefrodil_capacity, handle), keys = number(cefrodil_len, handle), count = 0;
    uint64_t *entries = (uint64_t *)memory((keys + 1) * ENTRY * sizeof *entries);
    cefrodil_handle larger = CEFRODIL_EMPTY;
    must(cefrodil_entries(handle, entries, keys * ENTRY, &count), "entries");
    for (; !opens(&larger, items, entries, count); items *= 2) {
        must(cefrodil_close(&larger), "close");
    }
    must(cefrodil_close(handle), "close");
    *handle = cefrodil_move(&larger);
    free(entries);
}

static bool has(cefrodil_handle *handle, uint64_t key, uint64_t *value) {
    return cefrodil_get(handle, key, value, 1, NULL) == CEFRODIL_OK;
}

/* Puts the key. Grows first if the cache is full, or if the key finds no place in it. */
static void put(cefrodil_handle *handle, uint64_t key, uint64_t value) {
    cefrodil_reply reply;
    uint64_t old;
    if (number(cefrodil_len, handle) == number(cefrodil_capacity, handle) && !has(handle, key, &old)) {
        grow(handle);
    }
    uint32_t status = cefrodil_put(handle, key, &value, 1, &reply);
    while (status == CEFRODIL_NO_PATH) {
        grow(handle);
        status = cefrodil_put(handle, key, &value, 1, &reply);
    }
    must(status, "put");
}

int main(void) {
    cefrodil_handle handle = CEFRODIL_EMPTY;
    uint64_t found = 0, value = 0;
    opens(&handle, 100, &value, 0);
    for (uint64_t key = 0; key < KEYS; key++) {
        put(&handle, key, key * key);
    }
    for (uint64_t key = 0; key < KEYS; key++) {
        found += has(&handle, key, &value) && value == key * key;
    }
    printf("%llu of %d keys, in a cache for %llu\n", (unsigned long long)found, KEYS, (unsigned long long)number(cefrodil_capacity, &handle));
    const bool lost = found != KEYS || number(cefrodil_len, &handle) != KEYS;
    must(cefrodil_close(&handle), "close");
    return lost;
}
