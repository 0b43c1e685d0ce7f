/* A cache is opened with entries: what becomes of each, and what is refused. Then they are listed, and open a larger cache. */
#include "cefrodil.h"
#include "must.h"

static cefrodil_handle handles[2];
static cefrodil_handle *const one = &handles[0], *const other = &handles[1];
static cefrodil_reply reply;

enum { SHARDS = 8, KEYS = 500 };

/* `buckets` buckets, `items` items, one stripe, and chains of at most two. */
static cefrodil_shape shape_of(uint32_t buckets, uint32_t items, uint64_t limit) {
    cefrodil_shape shape = {limit, buckets, items, 1, 2, 2, CEFRODIL_MIX_NONE, CEFRODIL_POLICY_SCAN_RESISTANT};
    return shape;
}

static const uint64_t most = UINT64_C(1) << 62;

/* Nine keys of bucket 0 in tables of two buckets, each with its key for a value. */
static const uint64_t nine[18] = {0, 0, 4, 4, 8, 8, 12, 12, 16, 16, 20, 20, 24, 24, 28, 28, 2, 2};

/* A key of the second shard, and the nine keys of the first. */
#define OTHER (UINT64_C(1) << 48)
static const uint64_t ten[20] = {0, 100, OTHER, 200, 4, 104, 8, 108, 12, 112, 16, 116, 20, 120, 24, 124, 28, 128, 2, 102};

static void close_both(void) { MUST(cefrodil_close(one) == CEFRODIL_OK && cefrodil_close(other) == CEFRODIL_OK); }

/* How many of the first `count` entries are in the shard of this key. */
static uint64_t in_shard_of(uint64_t key, const uint64_t *entries, size_t count) {
    uint64_t many = 0;
    for (size_t i = 0; i < count; i++) {
        many += entries[2 * i] / OTHER == key / OTHER;
    }
    return many;
}

/* The handle finds the first `put` of these entries, and no others. Each key's shard counts its own puts. */
static void finds(cefrodil_handle *handle, const uint64_t *entries, size_t count, size_t put) {
    for (size_t i = 0; i < count; i++) {
        const uint64_t key = entries[2 * i];
        uint64_t value = 99;
        const cefrodil_status status = cefrodil_get(handle, key, &value, 1, &reply);
        MUST(i < put ? status == CEFRODIL_OK && value == entries[2 * i + 1] && reply.since == in_shard_of(key, entries, i + 1) : status == CEFRODIL_ABSENT);
        MUST(reply.at == in_shard_of(key, entries, put));
    }
}

/* The first `put` of `count` entries are put, and the others have this status. No lookup comes before those that find them. */
static void loads(uint32_t shards, cefrodil_shape shape, size_t count, size_t put, cefrodil_status others) {
    const uint64_t *const entries = shards == 1 ? nine : ten;
    cefrodil_status statuses[11];
    for (size_t i = 0; i < 11; i++) {
        statuses[i] = 99;
    }
    MUST(cefrodil_open_with(&shape, shards, 1, entries, 2 * count, statuses, count, handles, 2) == CEFRODIL_OK);
    for (size_t i = 0; i < 11; i++) {
        MUST(statuses[i] == (i < put ? CEFRODIL_OK : i < count ? others : 99));
    }
    finds(other, entries, count, put);
    finds(one, entries, count, put);
    close_both();
}

/* The first entry of a full shard has its status, and those after it are put in the other shard. */
static void left_between(void) {
    const uint64_t entries[8] = {0, 10, 4, 11, OTHER, 20, 4 + OTHER, 21};
    const uint32_t expected[4] = {CEFRODIL_OK, CEFRODIL_NO_ITEM, CEFRODIL_OK, CEFRODIL_NO_ITEM};
    cefrodil_status statuses[4] = {99, 99, 99, 99};
    cefrodil_shape shape = shape_of(4, 1, most);
    MUST(cefrodil_open_with(&shape, 2, 1, entries, 8, statuses, 4, handles, 2) == CEFRODIL_OK);
    for (size_t i = 0; i < 4; i++) {
        uint64_t value = 99;
        MUST(statuses[i] == expected[i]);
        MUST(cefrodil_get(&handles[i % 2], entries[2 * i], &value, 1, &reply) == (i % 2 == 0 ? CEFRODIL_OK : CEFRODIL_ABSENT));
        MUST(value == (i % 2 == 0 ? entries[2 * i + 1] : 99) && reply.at == 1);
    }
    close_both();
}

static void twice(uint32_t shards) {
    const uint64_t entries[9] = {5, 50, 51, 6, 60, 61, 5, 52, 53};
    uint64_t value[2] = {0, 0};
    cefrodil_status statuses[3] = {99, 99, 99};
    cefrodil_shape shape = shape_of(4, 2, most);
    MUST(cefrodil_open_with(&shape, shards, 2, entries, 9, statuses, 3, handles, 2) == CEFRODIL_OK);
    MUST(statuses[0] == CEFRODIL_OK && statuses[1] == CEFRODIL_OK && statuses[2] == CEFRODIL_OK);
    MUST(cefrodil_get(other, 5, value, 2, &reply) == CEFRODIL_OK && value[0] == 52 && value[1] == 53 && reply.since == 3);
    MUST(cefrodil_put_if(one, 6, 2, value, 2, &reply) == CEFRODIL_OK && reply.at == 4);
    close_both();
}

static void widths(void) {
    cefrodil_shape shape = shape_of(4, 3, most);
    for (size_t words = 1; words <= 8; words++) {
        uint64_t entries[18], found[8] = {0};
        cefrodil_status statuses[2] = {99, 99};
        for (size_t i = 0; i < 18; i++) {
            entries[i] = 100 + i;
        }
        MUST(cefrodil_open_with(&shape, 1, words, entries, 2 * (words + 1), statuses, 2, handles, 2) == CEFRODIL_OK);
        MUST(statuses[0] == CEFRODIL_OK && statuses[1] == CEFRODIL_OK);
        MUST(cefrodil_get(other, 101 + words, found, words, &reply) == CEFRODIL_OK);
        for (size_t i = 0; i < 8; i++) {
            MUST(found[i] == (i < words ? 102 + words + i : 0));
        }
        close_both();
    }
}

/* Each refusal, with the faults after it still there. */
static void refused(void) {
    cefrodil_shape shape = shape_of(3, 3, most);
    uint64_t value;
    cefrodil_status statuses[9] = {99, 99, 99, 99, 99, 99, 99, 99, 99};
    shape.mix = 2, shape.policy = 2;
    MUST(cefrodil_open_with(&shape, 3, 0, nine, 17, statuses, 9, handles, 0) == CEFRODIL_BAD_WORDS);
    MUST(cefrodil_open_with(&shape, 3, 9, nine, 17, statuses, 9, handles, 0) == CEFRODIL_BAD_WORDS);
    MUST(cefrodil_open_with(&shape, 3, 1, nine, 17, statuses, 9, handles, 0) == CEFRODIL_BAD_COUNT);
    MUST(cefrodil_open_with(&shape, 3, 1, nine, 18, statuses, 8, handles, 0) == CEFRODIL_BAD_COUNT);
    MUST(cefrodil_open_with(&shape, 3, 2, nine, 18, statuses, 9, handles, 0) == CEFRODIL_BAD_COUNT);
    MUST(cefrodil_open_with(&shape, 3, 1, nine, 18, statuses, 9, handles, 0) == CEFRODIL_BAD_MIX);
    shape.mix = CEFRODIL_MIX_NONE;
    MUST(cefrodil_open_with(&shape, 3, 1, nine, 18, statuses, 9, handles, 0) == CEFRODIL_BAD_POLICY);
    shape.policy = CEFRODIL_POLICY_CLOCK;
    MUST(cefrodil_open_with(&shape, 3, 1, nine, 18, statuses, 9, handles, 0) == CEFRODIL_BAD_SHARDS);
    MUST(cefrodil_open_with(&shape, 0, 1, nine, 18, statuses, 9, handles, 0) == CEFRODIL_BAD_SHARDS);
    MUST(cefrodil_open_with(&shape, 512, 1, nine, 18, statuses, 9, handles, 0) == CEFRODIL_BAD_SHARDS);
    MUST(cefrodil_open_with(&shape, 4, 1, nine, 18, statuses, 9, handles, 0) == CEFRODIL_BAD_BUCKETS);
    shape.buckets = 4;
    MUST(cefrodil_open_with(&shape, 4, 1, nine, 18, statuses, 9, handles, 0) == CEFRODIL_BAD_HANDLES);
    MUST(!one->live_ && !other->live_);
    MUST(cefrodil_open_with(&shape, 1, 1, nine, 0, statuses, 0, other, 1) == CEFRODIL_OK);
    MUST(cefrodil_open_with(&shape, 3, 0, nine, 17, statuses, 9, handles, 2) == CEFRODIL_IN_USE);
    MUST(!one->live_ && other->live_ && cefrodil_get(other, 1, &value, 1, &reply) == CEFRODIL_ABSENT && cefrodil_close(other) == CEFRODIL_OK);
    for (int i = 0; i < 9; i++) {
        MUST(statuses[i] == 99);
    }
}

/* The list of a cache opens another one with the same keys. A handle lists by tries, or holds. */
static void listed(bool holds) {
    cefrodil_shape shape = shape_of(4, 3, most);
    uint64_t list[7] = {99, 99, 99, 99, 99, 99, 99}, count = 98;
    cefrodil_status statuses[4];
    MUST(cefrodil_open_with(&shape, 1, 1, nine, 8, statuses, 4, handles, 2) == CEFRODIL_OK);
    MUST(!holds || cefrodil_hold(one) == CEFRODIL_OK);
    MUST(cefrodil_entries(one, list, 5, &count) == CEFRODIL_BAD_COUNT && count == 3 && list[0] == 99);
    count = 98;
    MUST(cefrodil_entries(one, list, 6, &count) == CEFRODIL_OK && count == 3 && list[6] == 99);
    for (size_t i = 0; i < 6; i++) {
        MUST(list[i] == nine[i]);
    }
    list[4] = 99;
    MUST(cefrodil_remove(one, 4, &reply) == CEFRODIL_OK && cefrodil_entries(one, list, 7, &count) == CEFRODIL_OK && count == 2);
    MUST(list[0] == 0 && list[2] == 8 && list[3] == 8 && list[4] == 99);
    close_both();
    shape = shape_of(8, 16, most);
    MUST(cefrodil_open_with(&shape, 1, 1, list, 2 * count, statuses, count, handles, 2) == CEFRODIL_OK);
    MUST(cefrodil_get(one, 8, list, 1, &reply) == CEFRODIL_OK && list[0] == 8 && reply.at == 2 && reply.since == 2);
    close_both();
}

/* Values of each width are listed, and a cache without keys. */
static void listed_widths(void) {
    cefrodil_shape shape = shape_of(4, 3, most);
    for (size_t words = 1; words <= 8; words++) {
        uint64_t entries[18], list[18] = {0}, count;
        cefrodil_status statuses[2];
        for (size_t i = 0; i < 18; i++) {
            entries[i] = 100 + i;
        }
        MUST(cefrodil_open_with(&shape, 1, words, entries, 2 * (words + 1), statuses, 2, handles, 2) == CEFRODIL_OK);
        MUST(cefrodil_entries(one, list, 2 * (words + 1) - 1, &count) == CEFRODIL_BAD_COUNT && count == 2 && list[0] == 0);
        MUST(cefrodil_entries(one, list, 18, &count) == CEFRODIL_OK && count == 2);
        for (size_t i = 0; i < 18; i++) {
            MUST(list[i] == (i < 2 * (words + 1) ? entries[i] : 0));
        }
        close_both();
        MUST(cefrodil_open(&shape, 1, words, handles, 2) == CEFRODIL_OK);
        MUST(cefrodil_entries(one, list, 0, &count) == CEFRODIL_OK && count == 0);
        close_both();
        MUST(cefrodil_open_with(&shape, 1, words, NULL, 0, NULL, 0, handles, 2) == CEFRODIL_OK);
        count = 98;
        MUST(cefrodil_entries(one, NULL, 0, &count) == CEFRODIL_OK && count == 0);
        close_both();
    }
}

/* Keys of one shard or of several are listed, by a handle that has put none. */
static void listed_by_another(uint32_t shards) {
    cefrodil_shape shape = shape_of(8, 16, most);
    uint64_t list[20] = {0}, count, sum = 0;
    shape.mix = CEFRODIL_MIX_FULL;
    MUST(cefrodil_open(&shape, shards, 1, handles, 2) == CEFRODIL_OK);
    for (uint64_t key = 1; key <= 10; key++) {
        MUST(cefrodil_put(one, key, &key, 1, &reply) == CEFRODIL_OK);
    }
    MUST(cefrodil_entries(other, list, 19, &count) == CEFRODIL_BAD_COUNT && count == 10 && list[0] == 0);
    MUST(cefrodil_entries(other, list, 20, &count) == CEFRODIL_OK && count == 10);
    for (size_t i = 0; i < 20; i += 2) {
        MUST(list[i] == list[i + 1]);
        sum += list[i];
    }
    MUST(sum == 55);
    close_both();
}

/* Each entry with the moment of its key's last put. */
static void stamped(bool holds) {
    cefrodil_shape shape = shape_of(4, 3, most);
    uint64_t list[10] = {99, 99, 99, 99, 99, 99, 99, 99, 99, 99}, count = 98, found[2];
    MUST(cefrodil_open(&shape, 1, 2, handles, 2) == CEFRODIL_OK && (!holds || cefrodil_hold(one) == CEFRODIL_OK));
    MUST(cefrodil_stamped_entries(one, NULL, 0, &count) == CEFRODIL_OK && count == 0);
    for (uint64_t n = 0; n < 3; n++) {
        const uint64_t value[2] = {10 + n, 20 + n};
        MUST(cefrodil_put(one, n % 2, value, 2, &reply) == CEFRODIL_OK);
    }
    count = 98;
    MUST(cefrodil_stamped_entries(one, NULL, 0, &count) == CEFRODIL_BAD_COUNT && count == 2);
    count = 98;
    MUST(cefrodil_stamped_entries(one, list, 7, &count) == CEFRODIL_BAD_COUNT && count == 2 && list[0] == 99);
    MUST(cefrodil_stamped_entries(one, list, 10, &count) == CEFRODIL_OK && count == 2 && list[8] == 99 && list[9] == 99);
    for (size_t i = 0; i < 8; i += 4) {
        MUST(cefrodil_get(other, list[i], found, 2, &reply) == CEFRODIL_OK);
        MUST(list[i + 1] == found[0] && list[i + 2] == found[1] && list[i + 3] == reply.since && list[i + 3] == (list[i] == 0 ? 3 : 2));
    }
    close_both();
}

/* Keys of all shards are listed with stamps, each of which counts the changes of its key's shard. */
static void stamped_in_shards(void) {
    enum { MANY = 40, ENTRY = 3 };
    cefrodil_shape shape = shape_of(64, 100, most);
    uint64_t list[MANY * ENTRY], count = 98, found;
    shape.mix = CEFRODIL_MIX_FULL;
    MUST(cefrodil_open(&shape, 4, 1, handles, 2) == CEFRODIL_OK);
    for (uint64_t n = 0; n < 2 * MANY; n++) {
        MUST(cefrodil_put(one, n % MANY, &n, 1, &reply) == CEFRODIL_OK);
    }
    MUST(cefrodil_stamped_entries(other, list, MANY * ENTRY - 1, &count) == CEFRODIL_BAD_COUNT && count == MANY);
    MUST(cefrodil_stamped_entries(other, list, MANY * ENTRY, &count) == CEFRODIL_OK && count == MANY);
    for (size_t i = 0; i < MANY; i++) {
        const uint64_t *entry = list + i * ENTRY;
        MUST(cefrodil_get(other, entry[0], &found, 1, &reply) == CEFRODIL_OK && found == entry[0] + MANY);
        MUST(entry[1] == found && entry[2] == reply.since && entry[2] < 2 * MANY);
    }
    close_both();
}

/* The handle finds each of the keys with its number in every word. */
static void has_all(cefrodil_handle *handle, size_t words) {
    static uint64_t keys[KEYS], values[8 * KEYS];
    static cefrodil_answer answers[KEYS];
    for (uint64_t key = 0; key < KEYS; key++) {
        keys[key] = key;
    }
    MUST(cefrodil_get_many(handle, keys, KEYS, values, words * KEYS, answers, KEYS) == CEFRODIL_OK);
    for (size_t i = 0; i < words * KEYS; i++) {
        MUST(answers[i / words].status == CEFRODIL_OK && values[i] == i / words);
    }
}

/* Many keys in all shards. One handle holds and lists them, and a larger cache opens with its list. Meanwhile the other handle looks up in
 * the old cache, and writes nothing that the new one has not. */
static void grows(size_t words) {
    static uint64_t entries[9 * KEYS], list[9 * KEYS];
    static cefrodil_status statuses[KEYS];
    cefrodil_handle larger[2] = {CEFRODIL_EMPTY, CEFRODIL_EMPTY};
    uint64_t count = 98;
    cefrodil_shape shape;
    for (size_t i = 0; i < (1 + words) * KEYS; i++) {
        entries[i] = i / (1 + words);
        statuses[i % KEYS] = 99;
    }
    MUST(cefrodil_shape_for_items(KEYS, SHARDS, &shape) == CEFRODIL_OK);
    MUST(cefrodil_open_with(&shape, SHARDS, words, entries, (1 + words) * KEYS, statuses, KEYS, handles, 2) == CEFRODIL_OK);
    for (size_t i = 0; i < KEYS; i++) {
        MUST(statuses[i] == CEFRODIL_OK);
        statuses[i] = 99;
    }
    has_all(&handles[0], words);
    has_all(&handles[1], words);
    MUST(cefrodil_hold(&handles[1]) == CEFRODIL_OK);
    MUST(cefrodil_entries(&handles[1], list, (1 + words) * KEYS, &count) == CEFRODIL_OK && count == KEYS);
    MUST(cefrodil_shape_for_items(2 * KEYS, 2 * SHARDS, &shape) == CEFRODIL_OK);
    MUST(cefrodil_open_with(&shape, 2 * SHARDS, words, list, (1 + words) * KEYS, statuses, KEYS, larger, 2) == CEFRODIL_OK);
    has_all(&handles[0], words);
    MUST(cefrodil_put(&handles[0], 0, entries, words, &reply) == CEFRODIL_HELD);
    close_both();
    for (size_t i = 0; i < KEYS; i++) {
        MUST(statuses[i] == CEFRODIL_OK);
    }
    has_all(&larger[1], words);
    has_all(&larger[0], words);
    MUST(cefrodil_close(&larger[0]) == CEFRODIL_OK && cefrodil_close(&larger[1]) == CEFRODIL_OK);
}

/* No entries: their arrays may be null, and the shards are empty. */
static void none(void) {
    cefrodil_shape shape = shape_of(4, 16, most);
    uint64_t count = 98;
    MUST(cefrodil_open_with(&shape, 4, 1, NULL, 0, NULL, 0, handles, 2) == CEFRODIL_OK);
    MUST(cefrodil_open_with(&shape, 4, 1, NULL, 0, NULL, 0, handles, 2) == CEFRODIL_IN_USE);
    MUST(cefrodil_len(&handles[1], &count) == CEFRODIL_OK && count == 0);
    close_both();
}

int main(void) {
    loads(1, shape_of(4, 3, most), 8, 3, CEFRODIL_NO_ITEM);
    loads(1, shape_of(2, 8, most), 9, 8, CEFRODIL_NO_PATH);
    loads(1, shape_of(4, 16, 10), 3, 2, CEFRODIL_SPENT);
    loads(1, shape_of(4, 16, most), 0, 0, CEFRODIL_OK);
    loads(2, shape_of(4, 3, most), 10, 4, CEFRODIL_NO_ITEM);
    loads(2, shape_of(2, 8, most), 10, 9, CEFRODIL_NO_PATH);
    loads(2, shape_of(4, 16, 10), 4, 3, CEFRODIL_SPENT);
    loads(2, shape_of(4, 16, most), 2, 2, CEFRODIL_OK);
    left_between();
    twice(1);
    twice(4);
    none();
    widths();
    refused();
    listed(false);
    listed(true);
    listed_widths();
    listed_by_another(1);
    listed_by_another(4);
    stamped(false);
    stamped(true);
    stamped_in_shards();
    for (size_t words = 1; words <= 8; words++) {
        grows(words);
    }
    return outcome("entries");
}
