/* The shape of shards, and keys of all shards by several handles. */
#include "cefrodil.h"
#include "must.h"

enum { SHARDS = 8, KEYS = 500 };

static cefrodil_handle handles[2];
static cefrodil_shape shape;
static cefrodil_reply reply;

static void close_both(void) { MUST(cefrodil_close(&handles[0]) == CEFRODIL_OK && cefrodil_close(&handles[1]) == CEFRODIL_OK); }

static void shapes(void) {
    MUST(cefrodil_shape_for_items(0, 0, &shape) == CEFRODIL_BAD_SHARDS && cefrodil_shape_for_items(KEYS, 0, &shape) == CEFRODIL_BAD_SHARDS);
    MUST(cefrodil_shape_for_items(KEYS, 12, &shape) == CEFRODIL_BAD_SHARDS);
    MUST(cefrodil_shape_for_items(KEYS, 512, &shape) == CEFRODIL_BAD_SHARDS);
    MUST(cefrodil_shape_for_items(0, 1, &shape) == CEFRODIL_BAD_ITEMS && cefrodil_shape_for_items(0, SHARDS, &shape) == CEFRODIL_BAD_ITEMS);
    shape.mix = 9, shape.policy = 9;
    MUST(cefrodil_shape_for_items(UINT32_MAX, 1, &shape) == CEFRODIL_BAD_ITEMS && shape.buckets == 0 && shape.policy == 9);
    /* One shard has just these. Of several, each has its share and five deviations more: 63 and five times 8, 2 and five times 2. */
    MUST(cefrodil_shape_for_items(20, 1, &shape) == CEFRODIL_OK && shape.items == 20 && shape.buckets == 16);
    MUST(shape.mix == CEFRODIL_MIX_FULL && shape.policy == CEFRODIL_POLICY_SCAN_RESISTANT);
    MUST(cefrodil_shape_for_items(KEYS, SHARDS, &shape) == CEFRODIL_OK && shape.items == 103 && shape.buckets == 64);
    /* Fewer than 256 items have room for twice as many. */
    MUST(cefrodil_shape_for_items(255, 1, &shape) == CEFRODIL_OK && shape.items == 255 && shape.buckets == 256);
    MUST(cefrodil_shape_for_items(256, 1, &shape) == CEFRODIL_OK && shape.items == 256 && shape.buckets == 128);
    MUST(cefrodil_shape_for_items(KEYS, 256, &shape) == CEFRODIL_OK && shape.items == 12);
    /* The most items of a shard, and one more. */
    MUST(cefrodil_shape_for_items(3774873, 1, &shape) == CEFRODIL_OK && shape.items == 3774873 && shape.buckets == 1048576);
    MUST(cefrodil_shape_for_items(3774874, 1, &shape) == CEFRODIL_BAD_ITEMS && shape.items == 3774873);
    MUST(cefrodil_shape_for_items(2 * (3774873 - 5 * 1941), 2, &shape) == CEFRODIL_OK && shape.items == 3774873);
    MUST(cefrodil_shape_for_items(2 * (3774873 - 5 * 1941) + 1, 2, &shape) == CEFRODIL_BAD_ITEMS && shape.items == 3774873);
}

/* A new cache has no key, and no change was made to any shard: every key's shard is at moment 0. */
static void starts_empty(size_t words) {
    static uint64_t keys[KEYS], values[8 * KEYS], list[10 * KEYS];
    static cefrodil_answer answers[KEYS];
    uint64_t count = 99, moment = 99;
    for (uint64_t key = 0; key < KEYS; key++) {
        keys[key] = key;
    }
    MUST(cefrodil_get_many(&handles[0], keys, KEYS, values, words * KEYS, answers, KEYS) == CEFRODIL_OK);
    for (size_t i = 0; i < KEYS; i++) {
        MUST(answers[i].status == CEFRODIL_ABSENT && answers[i].at == 0);
    }
    MUST(cefrodil_entries(&handles[1], list, 10 * KEYS, &count) == CEFRODIL_OK && count == 0);
    count = 99;
    MUST(cefrodil_stamped_entries(&handles[1], list, 10 * KEYS, &count) == CEFRODIL_OK && count == 0);
    count = 99;
    MUST(cefrodil_len(&handles[1], &count) == CEFRODIL_OK && count == 0 && cefrodil_moment(&handles[0], &moment) == CEFRODIL_OK && moment == 0);
}

/* The cache counts all its keys and changes, by either handle. */
static void counts(uint32_t shards) {
    uint64_t count = 99;
    for (int i = 0; i < 2; i++) {
        MUST(cefrodil_len(&handles[i], &count) == CEFRODIL_OK && count == KEYS);
        MUST(cefrodil_moment(&handles[i], &count) == CEFRODIL_OK && count == KEYS);
        MUST(cefrodil_capacity(&handles[i], &count) == CEFRODIL_OK && count == (uint64_t)shape.items * shards);
        MUST(cefrodil_entries_or_none(&handles[i], NULL, 0, &count) == CEFRODIL_BAD_COUNT && count == KEYS);
        count = 99;
        MUST(cefrodil_stamped_entries_or_none(&handles[i], NULL, 0, &count) == CEFRODIL_BAD_COUNT && count == KEYS);
    }
}

/* Keys of all shards, each with its key for a value. One shard alone counts its changes: with n shards no moment is n times as high. */
static void many_keys(uint32_t shards, size_t words) {
    static uint64_t keys[KEYS], values[8 * KEYS];
    static cefrodil_answer answers[KEYS];
    uint64_t last = 0;
    MUST(cefrodil_open(&shape, shards, words, handles, 2) == CEFRODIL_OK);
    starts_empty(words);
    for (uint64_t key = 0; key < KEYS; key++) {
        uint64_t value[8] = {key, key, key, key, key, key, key, key};
        keys[key] = key;
        MUST(cefrodil_put(&handles[key % 2], key, value, words, &reply) == CEFRODIL_OK && reply.put == CEFRODIL_PUT_STORED);
        last = reply.at > last ? reply.at : last;
    }
    MUST(shards == 1 ? last == KEYS : last < KEYS / 2);
    counts(shards);
    for (uint64_t key = 0; key < 2 * KEYS; key++) {
        MUST(cefrodil_prefetch(&handles[key % 2], key) == CEFRODIL_OK);
    }
    MUST(cefrodil_get_many(&handles[0], keys, KEYS, values, words * KEYS, answers, KEYS) == CEFRODIL_OK);
    for (size_t i = 0; i < KEYS; i++) {
        MUST(answers[i].status == CEFRODIL_OK && answers[i].since <= answers[i].at && answers[i].at <= last);
        for (size_t j = 0; j < words; j++) {
            MUST(values[words * i + j] == i);
        }
    }
    MUST(cefrodil_get_many(&handles[0], keys, KEYS, values, words * KEYS, answers, KEYS - 1) == CEFRODIL_BAD_COUNT);
    MUST(cefrodil_get_many(&handles[0], keys, KEYS, values, words * KEYS - 1, answers, KEYS) == CEFRODIL_WIDTH);
    close_both();
}

int main(void) {
    static const uint32_t numbers[] = {1, SHARDS, 256};
    shapes();
    for (size_t words = 1; words <= 8; words++) {
        for (size_t i = 0; i < 3; i++) {
            MUST(cefrodil_shape_for_items(KEYS, numbers[i], &shape) == CEFRODIL_OK);
            many_keys(numbers[i], words);
        }
    }
    return outcome("sharding");
}
