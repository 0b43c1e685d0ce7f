/* A look at each place of the table shows each entry once. It is no use of a key, and an entry keeps its place while its key is there. */
#include "cefrodil.h"
#include "must.h"
#include <stdlib.h>

enum { WORDS = 3, KEYS = 400 };

static cefrodil_reply reply;

/* Which entries were seen: their places, by key. */
typedef struct {
    uint32_t count;
    uint32_t item[2 * KEYS];
    uint32_t times[2 * KEYS];
} seen;

/* Goes round the shard of `near`. Key k was put with the value k, k + 1, k + 2, `more` later. */
static void go_round(cefrodil_handle *handle, uint64_t near, uint32_t items, uint64_t more, seen *all) {
    for (uint32_t item = 0; item < items; item++) {
        uint64_t value[WORDS + 1] = {7, 8, 9, 99}, found[WORDS];
        const cefrodil_status status = cefrodil_entry_at(handle, near, item, value, WORDS, &reply);
        MUST(value[WORDS] == 99 && reply.at == 0 && reply.moves == 0 && reply.put == CEFRODIL_PUT_NOTHING);
        if (status == CEFRODIL_ABSENT) {
            MUST(value[0] == 7 && value[1] == 8 && value[2] == 9 && reply.evicted == 0 && reply.since == 0);
            continue;
        }
        const uint64_t key = reply.evicted, since = reply.since;
        MUST(status == CEFRODIL_OK && key < 2 * KEYS);
        MUST(value[0] == key + more && value[1] == key + more + 1 && value[2] == key + more + 2);
        MUST(cefrodil_peek(handle, key, found, WORDS, &reply) == CEFRODIL_OK && reply.since == since && found[2] == value[2]);
        all->item[key] = item, all->times[key]++, all->count++;
    }
}

static void put(cefrodil_handle *handle, uint64_t key, uint64_t more) {
    const uint64_t value[WORDS] = {key + more, key + more + 1, key + more + 2};
    MUST(cefrodil_put(handle, key, value, WORDS, &reply) == CEFRODIL_OK);
}

static cefrodil_handle opened(uint32_t items, uint32_t shards, cefrodil_shape *shape) {
    cefrodil_handle handle = CEFRODIL_EMPTY;
    MUST(cefrodil_shape_for_items(items, shards, shape) == CEFRODIL_OK);
    MUST(cefrodil_open(shape, shards, WORDS, &handle, 1) == CEFRODIL_OK);
    return handle;
}

/* Each entry is shown once, in the shard of its own key alone. Where no entry lies, and beyond the last item, nothing is shown. */
static void each_once(void) {
    cefrodil_shape shape;
    cefrodil_handle handle = opened(2 * KEYS, 2, &shape);
    seen *all = calloc(1, sizeof *all);
    uint64_t len = 0, word[WORDS], other = 1;
    for (uint64_t key = 0; key < KEYS; key++) {
        put(&handle, key, 0);
    }
    for (uint64_t key = 0; key < KEYS; key += 3) {
        MUST(cefrodil_remove(&handle, key, &reply) == CEFRODIL_OK);
    }
    go_round(&handle, 0, shape.items, 0, all);
    while (other < KEYS && (other % 3 == 0 || all->times[other] != 0)) {
        other++;
    }
    MUST(all->count > 0 && other < KEYS);
    go_round(&handle, other, shape.items, 0, all);
    MUST(cefrodil_len(&handle, &len) == CEFRODIL_OK && all->count == len && len == KEYS - (KEYS + 2) / 3);
    for (uint64_t key = 0; key < KEYS; key++) {
        MUST(all->times[key] == (key % 3 != 0));
    }
    MUST(cefrodil_entry_at(&handle, 0, shape.items, word, WORDS, &reply) == CEFRODIL_ABSENT);
    MUST(cefrodil_entry_at(&handle, 0, UINT32_MAX, word, WORDS, &reply) == CEFRODIL_ABSENT);
    MUST(cefrodil_entry_at(&handle, 0, 0, word, WORDS - 1, &reply) == CEFRODIL_WIDTH);
    MUST(cefrodil_close(&handle) == CEFRODIL_OK);
    free(all);
}

/* Keys that are moved between buckets, and put again, keep their items. */
static void stays(void) {
    cefrodil_shape shape;
    cefrodil_handle handle = opened(KEYS, 1, &shape);
    seen *before = calloc(1, sizeof *before), *after = calloc(1, sizeof *after);
    uint64_t moves = 0;
    for (uint64_t key = 0; key < KEYS / 4; key++) {
        put(&handle, key, 0);
    }
    go_round(&handle, 0, shape.items, 0, before);
    for (uint64_t key = KEYS / 4; key < KEYS; key++) {
        put(&handle, key, 1);
        moves += reply.moves;
    }
    for (uint64_t key = 0; key < KEYS / 4; key++) {
        put(&handle, key, 1);
    }
    go_round(&handle, 0, shape.items, 1, after);
    MUST(before->count == KEYS / 4 && after->count == KEYS && moves > 0);
    for (uint64_t key = 0; key < KEYS / 4; key++) {
        MUST(after->item[key] == before->item[key] && after->times[key] == 1);
    }
    MUST(cefrodil_close(&handle) == CEFRODIL_OK);
    free(before), free(after);
}

/* Keys that were only looked at so give way in the order of their puts, as those that nobody used. */
static void no_use(void) {
    cefrodil_shape shape;
    cefrodil_handle handle = opened(4, 1, &shape);
    seen *all = calloc(1, sizeof *all);
    uint64_t old[WORDS];
    for (uint64_t key = 1; key <= 4; key++) {
        put(&handle, key, 0);
    }
    go_round(&handle, 0, shape.items, 0, all);
    for (uint64_t key = 1; key <= 4; key++) {
        MUST(cefrodil_evict(&handle, 0, old, WORDS, &reply) == CEFRODIL_OK && reply.evicted == key);
    }
    MUST(cefrodil_close(&handle) == CEFRODIL_OK);
    free(all);
}

int main(void) {
    each_once();
    stays();
    no_use();
    return outcome("places");
}
