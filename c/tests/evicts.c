/* An eviction without a put evicts what a put would, and returns its entry. Which key that is, by rows, is a matter of policies.c. */
#include "cefrodil.h"
#include "must.h"
#include <pthread.h>
#include <stdatomic.h>
#include <time.h>

enum { MOST = 8, MANY = 300, KEYS = 1000, ROUNDS = 20000 };

static cefrodil_reply reply;

static cefrodil_shape shape_of(uint32_t items, uint32_t shards, uint32_t policy) {
    cefrodil_shape shape;
    MUST(cefrodil_shape_for_items(items, shards, &shape) == CEFRODIL_OK);
    shape.policy = policy;
    return shape;
}

static cefrodil_handle opened(const cefrodil_shape *shape, uint32_t shards, size_t words) {
    cefrodil_handle handle = CEFRODIL_EMPTY;
    MUST(cefrodil_open(shape, shards, words, &handle, 1) == CEFRODIL_OK);
    return handle;
}

static void put(cefrodil_handle *handle, uint64_t key, uint64_t word, size_t words) {
    uint64_t value[MOST];
    for (size_t i = 0; i < words; i++) {
        value[i] = word + i;
    }
    MUST(cefrodil_put(handle, key, value, words, &reply) == CEFRODIL_OK);
}

/* The reply has these numbers, and no others. */
static bool replies(uint64_t at, uint64_t since, uint64_t evicted) {
    return reply.at == at && reply.since == since && reply.evicted == evicted && reply.moves == 0 && reply.put == CEFRODIL_PUT_NOTHING;
}

/* A shard that has no key, before its first put and after the last key has gone. */
static void of_an_empty_shard(uint32_t policy) {
    const cefrodil_shape shape = shape_of(20, 1, policy);
    cefrodil_handle handle = opened(&shape, 1, 2);
    uint64_t old[2] = {8, 9};
    MUST(cefrodil_evict(&handle, 7, old, 2, &reply) == CEFRODIL_ABSENT && replies(0, 0, 0));
    put(&handle, 7, 70, 2);
    MUST(cefrodil_remove(&handle, 7, &reply) == CEFRODIL_OK);
    MUST(cefrodil_evict(&handle, 7, old, 2, &reply) == CEFRODIL_ABSENT && replies(2, 0, 0) && old[0] == 8 && old[1] == 9);
    MUST(cefrodil_close(&handle) == CEFRODIL_OK);
}

/* Where most items are free, an eviction returns the value and the stamp of its key. Key 1 was put twice, which is a use. CLOCK's hand finds
 * the bit of each set. */
static void an_entry(uint32_t policy, size_t words) {
    const cefrodil_shape shape = shape_of(20, 1, policy);
    cefrodil_handle handle = opened(&shape, 1, words);
    const bool clock = policy == CEFRODIL_POLICY_CLOCK;
    const uint64_t first = clock ? 1 : 2, second = 3 - first;
    uint64_t old[MOST + 1] = {0}, len = 9;
    put(&handle, 1, 10, words);
    put(&handle, 1, 100, words);
    put(&handle, 2, 200, words);
    old[words] = 99;
    MUST(cefrodil_evict(&handle, 5, old, words, &reply) == CEFRODIL_OK && replies(4, first + 1, first));
    MUST(old[0] == 100 * first && old[words - 1] == 100 * first + words - 1 && old[words] == 99);
    MUST(cefrodil_get(&handle, first, old, words, &reply) == CEFRODIL_ABSENT && reply.at == 4);
    MUST(cefrodil_get(&handle, second, old, words, &reply) == CEFRODIL_OK && reply.since == second + 1 && old[0] == 100 * second);
    MUST(cefrodil_evict(&handle, 5, old, words, &reply) == CEFRODIL_OK && replies(5, second + 1, second) && old[0] == 100 * second);
    MUST(cefrodil_get(&handle, second, old, words, &reply) == CEFRODIL_ABSENT && reply.at == 5);
    MUST(cefrodil_len(&handle, &len) == CEFRODIL_OK && len == 0 && cefrodil_moment(&handle, &len) == CEFRODIL_OK && len == 5);
    MUST(cefrodil_close(&handle) == CEFRODIL_OK);
}

/* Evicts in the shard of `near` until that has no key. Returns how many keys went. Each is told with its own value, and is gone. */
static uint64_t emptied(cefrodil_handle *handle, uint64_t near) {
    uint64_t count = 0, old = 0, found;
    cefrodil_status status;
    while ((status = cefrodil_evict(handle, near, &old, 1, &reply)) == CEFRODIL_OK) {
        MUST(old == 3 * reply.evicted && cefrodil_get(handle, reply.evicted, &found, 1, NULL) == CEFRODIL_ABSENT);
        count++;
    }
    MUST(status == CEFRODIL_ABSENT);
    return count;
}

/* With two shards, only that of the named key changes. Keys are not mixed, and one bit says which shard has a key. */
static void in_its_shard(uint32_t policy) {
    cefrodil_shape shape = shape_of(100, 2, policy);
    shape.mix = CEFRODIL_MIX_NONE;
    cefrodil_handle handle = opened(&shape, 2, 1);
    const uint64_t other = UINT64_C(1) << 48;
    uint64_t found, len = 9;
    for (uint64_t key = 1; key <= 10; key++) {
        put(&handle, key, 3 * key, 1);
        put(&handle, other + key, 3 * (other + key), 1);
    }
    MUST(emptied(&handle, other + 77) == 10 && reply.at == 20);
    for (uint64_t key = 1; key <= 10; key++) {
        MUST(cefrodil_get(&handle, other + key, &found, 1, &reply) == CEFRODIL_ABSENT && reply.at == 20);
        MUST(cefrodil_get(&handle, key, &found, 1, &reply) == CEFRODIL_OK && reply.at == 10 && found == 3 * key);
    }
    MUST(cefrodil_len(&handle, &len) == CEFRODIL_OK && len == 10 && emptied(&handle, 77) == 10 && reply.at == 20);
    MUST(cefrodil_close(&handle) == CEFRODIL_OK);
}

/* Each key of a cache, full or not, is evicted once, whichever of them were used. */
static void all_keys(uint32_t policy, uint64_t keys, uint32_t shards) {
    const cefrodil_shape shape = shape_of(MANY, shards, policy);
    cefrodil_handle handle = opened(&shape, shards, 1);
    uint64_t len = 0, found, count = 0;
    for (uint64_t key = 1; key <= keys; key++) {
        uint64_t value = 3 * key;
        const cefrodil_status status = cefrodil_put(&handle, key, &value, 1, &reply);
        MUST(status == CEFRODIL_OK || status == CEFRODIL_NO_PATH);
        MUST(key % 3 != 0 || cefrodil_get(&handle, key - 1, &found, 1, NULL) <= CEFRODIL_ABSENT);
    }
    MUST(cefrodil_len(&handle, &len) == CEFRODIL_OK && len > 0);
    for (uint64_t near = 0; near < KEYS && count < len; near++) {
        count += emptied(&handle, near);
    }
    MUST(count == len && cefrodil_len(&handle, &len) == CEFRODIL_OK && len == 0);
    MUST(cefrodil_close(&handle) == CEFRODIL_OK);
}

static uint64_t drawn = 1;

static uint64_t draw(uint64_t below) {
    drawn = drawn * 6364136223846793005 + 1442695040888963407;
    return (drawn >> 33) % below;
}

/* One of two full caches puts new keys. The other one evicts before each, and evicts the same key at the same moment. */
static void as_a_put(uint32_t policy, uint32_t items) {
    cefrodil_shape shape = shape_of(items, 1, policy);
    shape.buckets *= 4;
    cefrodil_handle putting = opened(&shape, 1, 1), evicting = opened(&shape, 1, 1);
    uint64_t found, len = 0;
    for (uint64_t n = 0; n < ROUNDS; n++) {
        const uint64_t key = draw(2) ? draw(3 * items) : draw(items);
        cefrodil_reply expected;
        const cefrodil_status status = cefrodil_get(&putting, key, &found, 1, &expected);
        MUST(cefrodil_get(&evicting, key, &found, 1, &reply) == status && reply.at == expected.at && reply.since == expected.since);
        if (status == CEFRODIL_ABSENT) {
            uint64_t old = 0;
            MUST(cefrodil_swap(&putting, key, &key, 1, &old, 1, &expected) == CEFRODIL_OK);
            if (expected.put == CEFRODIL_PUT_EVICTED) {
                MUST(cefrodil_evict(&evicting, key, &found, 1, &reply) == CEFRODIL_OK && found == old);
                MUST(replies(expected.at - 1, expected.since, expected.evicted));
            }
            MUST(cefrodil_put(&evicting, key, &key, 1, &reply) == CEFRODIL_OK && reply.put == CEFRODIL_PUT_STORED && reply.at == expected.at);
        }
    }
    MUST(cefrodil_len(&evicting, &len) == CEFRODIL_OK && len == items);
    MUST(cefrodil_close(&putting) == CEFRODIL_OK && cefrodil_close(&evicting) == CEFRODIL_OK);
}

/* Without moves, a put makes two version changes, and must have room for four. An eviction makes two. */
static void at_the_limit(uint32_t policy) {
    cefrodil_shape shape = shape_of(20, 1, policy);
    shape.depth = 0, shape.limit = 6;
    cefrodil_handle handle = opened(&shape, 1, 1);
    uint64_t old = 9, found;
    put(&handle, 1, 10, 1);
    put(&handle, 2, 20, 1);
    MUST(cefrodil_evict(&handle, 0, &old, 1, &reply) == CEFRODIL_OK && replies(3, 1, 1) && old == 10);
    for (int i = 0; i < 2; i++) {
        MUST(cefrodil_evict(&handle, 0, &old, 1, &reply) == CEFRODIL_SPENT && replies(0, 0, 0) && old == 10);
    }
    MUST(cefrodil_get(&handle, 2, &found, 1, &reply) == CEFRODIL_OK && reply.at == 3 && reply.since == 2 && found == 20);
    MUST(cefrodil_close(&handle) == CEFRODIL_OK);
}

static atomic_bool done;

static void *looks_up(void *handle) {
    uint64_t found;
    while (!done) {
        MUST(cefrodil_get(handle, 1, &found, 1, NULL) <= CEFRODIL_BUSY);
    }
    return NULL;
}

/* Another thread uses the one key all the time, so now and then both readings find it used. Then it stays. */
static void all_recent(uint32_t policy) {
    const cefrodil_shape shape = shape_of(1, 1, policy);
    cefrodil_handle handles[2] = {CEFRODIL_EMPTY, CEFRODIL_EMPTY};
    pthread_t other;
    uint64_t refused = 0, at = 1, old = 9;
    const time_t end = time(NULL) + 60;
    done = false;
    MUST(cefrodil_open(&shape, 1, 1, handles, 2) == CEFRODIL_OK);
    put(&handles[0], 1, 10, 1);
    MUST(pthread_create(&other, NULL, looks_up, &handles[1]) == 0);
    while (refused < 3 && time(NULL) < end) {
        old = 9;
        const cefrodil_status status = cefrodil_evict(&handles[0], 0, &old, 1, &reply);
        if (status == CEFRODIL_ALL_RECENT) {
            MUST(replies(0, 0, 0) && old == 9 && cefrodil_peek(&handles[0], 1, &old, 1, &reply) == CEFRODIL_OK && reply.at == at && old == 10);
            refused++;
        } else {
            MUST(status == CEFRODIL_OK && replies(at + 1, at, 1) && old == 10);
            put(&handles[0], 1, 10, 1);
            at += 2;
            MUST(reply.at == at);
        }
    }
    done = true;
    MUST(pthread_join(other, NULL) == 0 && refused == 3);
    MUST(cefrodil_close(&handles[0]) == CEFRODIL_OK && cefrodil_close(&handles[1]) == CEFRODIL_OK);
}

int main(void) {
    for (uint32_t policy = CEFRODIL_POLICY_SCAN_RESISTANT; policy <= CEFRODIL_POLICY_CLOCK; policy++) {
        of_an_empty_shard(policy);
        for (size_t words = 1; words <= MOST; words++) {
            an_entry(policy, words);
        }
        in_its_shard(policy);
        for (uint32_t shards = 1; shards <= 4; shards *= 4) {
            all_keys(policy, MANY / 2, shards);
            all_keys(policy, KEYS, shards);
        }
        as_a_put(policy, 1);
        as_a_put(policy, 7);
        as_a_put(policy, MANY);
        at_the_limit(policy);
        all_recent(policy);
    }
    return outcome("evicts");
}
