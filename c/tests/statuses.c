/* Each status of each call, and what a call leaves alone. */
#include "cefrodil.h"
#include "must.h"
#include <stdlib.h>

static cefrodil_handle handles[2], none;
static cefrodil_handle *const one = &handles[0], *const other = &handles[1];
static cefrodil_shape shape;
static cefrodil_reply reply;
static cefrodil_answer answers[4];

static uint32_t opened(uint32_t shards) { return cefrodil_open(&shape, shards, 2, handles, 2); }

static void close_both(void) {
    MUST(cefrodil_close(one) == CEFRODIL_OK && cefrodil_close(other) == CEFRODIL_OK);
    MUST(cefrodil_close(one) == CEFRODIL_CLOSED);
}

/* Each refusal of an opening, with the faults after it still there. */
static void refused_openings(void) {
    const cefrodil_shape good = shape;
    shape.mix = 2, shape.policy = 2, shape.buckets = 3;
    MUST(cefrodil_open(&shape, 3, 0, handles, 0) == CEFRODIL_BAD_WORDS);
    MUST(cefrodil_open(&shape, 3, 9, handles, 0) == CEFRODIL_BAD_WORDS);
    MUST(cefrodil_open(&shape, 3, 2, handles, 0) == CEFRODIL_BAD_MIX);
    shape.mix = 1;
    MUST(cefrodil_open(&shape, 3, 2, handles, 0) == CEFRODIL_BAD_POLICY);
    shape.policy = UINT32_MAX;
    MUST(opened(3) == CEFRODIL_BAD_POLICY);
    shape.policy = CEFRODIL_POLICY_CLOCK, shape.items = 0;
    MUST(opened(3) == CEFRODIL_BAD_SHARDS && opened(0) == CEFRODIL_BAD_SHARDS && opened(512) == CEFRODIL_BAD_SHARDS);
    MUST(opened(256) == CEFRODIL_BAD_BUCKETS);
    shape.buckets = 8, shape.stripes = 3;
    MUST(opened(1) == CEFRODIL_BAD_ITEMS);
    shape.items = 20, shape.depth = 256 + 5;
    MUST(opened(1) == CEFRODIL_BAD_STRIPES);
    shape.stripes = 4, shape.tries = 0;
    MUST(opened(1) == CEFRODIL_BAD_DEPTH);
    shape.depth = 5, shape.limit = UINT64_C(1) << 63;
    MUST(opened(1) == CEFRODIL_BAD_TRIES);
    shape.tries = 256 + 8;
    MUST(opened(1) == CEFRODIL_BAD_TRIES);
    shape.tries = 8;
    MUST(cefrodil_open(&shape, 1, 2, handles, 0) == CEFRODIL_BAD_LIMIT);
    shape = good;
    MUST(cefrodil_open(&shape, 1, 2, handles, 0) == CEFRODIL_BAD_HANDLES);
    shape.policy = 2;
    MUST(opened(1) == CEFRODIL_BAD_POLICY && opened(256) == CEFRODIL_BAD_POLICY);
    shape = good;
    MUST(!one->live_ && !other->live_);
}

/* An open handle is refused before anything else, and stays as it is. */
static void in_use(void) {
    uint64_t value[2] = {7, 8};
    MUST(cefrodil_open(&shape, 1, 2, other, 1) == CEFRODIL_OK && cefrodil_put(other, 1, value, 2, &reply) == CEFRODIL_OK);
    MUST(cefrodil_open(&shape, 3, 0, handles, 2) == CEFRODIL_IN_USE && !one->live_);
    MUST(cefrodil_get(other, 1, value, 2, NULL) == CEFRODIL_OK && cefrodil_close(other) == CEFRODIL_OK);
}

/* Null pointers and counts that do not match, by a handle that is not open. */
static void closed(void) {
    uint64_t value[2] = {1, 2};
    MUST(cefrodil_version() == CEFRODIL_VERSION);
    MUST(cefrodil_get_many(&none, value, 1, value + 1, 1, answers, 4) == CEFRODIL_CLOSED && value[1] == 2);
    MUST(cefrodil_entries(&none, NULL, 0, value) == CEFRODIL_CLOSED && cefrodil_stamped_entries(&none, NULL, 0, value) == CEFRODIL_CLOSED);
    MUST(cefrodil_close(NULL) == CEFRODIL_CLOSED && cefrodil_get(&none, 1, value, 2, NULL) == CEFRODIL_CLOSED && value[0] == 1);
}

/* The calls of one key: two handles of a cache are alike. With one shard or several, only the changes to the key's shard are counted. */
static void calls(uint32_t shards) {
    uint64_t value[2] = {7, 8}, found[2] = {0, 0};
    MUST(opened(shards) == CEFRODIL_OK && one->live_ && other->live_ && opened(shards) == CEFRODIL_IN_USE);
    MUST(cefrodil_get(one, 1, found, 2, &reply) == CEFRODIL_ABSENT && found[0] == 0 && reply.at == 0);
    MUST(cefrodil_put(one, 1, value, 2, &reply) == CEFRODIL_OK && reply.at == 1 && reply.put == CEFRODIL_PUT_STORED);
    MUST(cefrodil_get(other, 1, found, 2, &reply) == CEFRODIL_OK && found[0] == 7 && found[1] == 8 && reply.at == 1 && reply.since == 1);
    found[0] = 0;
    MUST(cefrodil_get(other, 1, found, 2, NULL) == CEFRODIL_OK && found[0] == 7);
    MUST(cefrodil_get_or_turn(other, 1, found, 2, &reply) == CEFRODIL_OK && reply.at == 1 && reply.since == 1);
    MUST(cefrodil_put(other, 1, value, 2, &reply) == CEFRODIL_OK && reply.at == 2 && reply.put == CEFRODIL_PUT_RENEWED);
    MUST(cefrodil_put_if(one, 1, 1, value, 2, &reply) == CEFRODIL_CHANGED && reply.since == 2);
    MUST(cefrodil_put_if(one, 1, 2, value, 2, &reply) == CEFRODIL_OK && reply.at == 3 && reply.put == CEFRODIL_PUT_RENEWED);
    MUST(cefrodil_put_if(one, 2, 2, value, 2, &reply) == CEFRODIL_ABSENT);
    MUST(cefrodil_put_if_absent(other, 1, value, 2, &reply) == CEFRODIL_PRESENT && reply.since == 3 && reply.at == 0);
    MUST(cefrodil_put_within(other, 0, 1, value, 2, &reply) == CEFRODIL_OK && reply.at == 4 && reply.put == CEFRODIL_PUT_RENEWED);
    MUST(cefrodil_put_within(one, 9, 1, value, 2, &reply) == CEFRODIL_OK && reply.at == 5);
    MUST(cefrodil_remove(one, 1, &reply) == CEFRODIL_OK && reply.at == 6);
    MUST(cefrodil_remove(other, 1, &reply) == CEFRODIL_ABSENT && reply.at == 6);
    MUST(cefrodil_put_if_absent(other, 1, value, 2, &reply) == CEFRODIL_OK && reply.at == 7 && reply.put == CEFRODIL_PUT_STORED);
    MUST(cefrodil_remove(one, 1, &reply) == CEFRODIL_OK && reply.at == 8);
    close_both();
}

/* What a cache of one shard knows of itself, by each handle. One may hold the turns. */
static void counts(cefrodil_handle *writer, cefrodil_handle *asked) {
    uint64_t number = 99, value[2] = {7, 8}, found[2] = {0, 0};
    MUST(cefrodil_moment(asked, &number) == CEFRODIL_OK && number == 0);
    MUST(cefrodil_len(asked, &number) == CEFRODIL_OK && number == 0);
    MUST(cefrodil_capacity(asked, &number) == CEFRODIL_OK && number == shape.items);
    for (uint64_t key = 1; key <= 4; key++) {
        MUST(cefrodil_put(writer, key, value, 2, &reply) == CEFRODIL_OK && reply.at == key);
        MUST(cefrodil_len(asked, &number) == CEFRODIL_OK && number == key);
    }
    MUST(cefrodil_put(writer, 4, value, 2, &reply) == CEFRODIL_OK && cefrodil_len(asked, &number) == CEFRODIL_OK && number == 4);
    MUST(cefrodil_get(asked, 3, found, 2, &reply) == CEFRODIL_OK && found[0] == 7 && found[1] == 8 && reply.at == 5 && reply.since == 3);
    MUST(cefrodil_remove(writer, 3, &reply) == CEFRODIL_OK && cefrodil_len(asked, &number) == CEFRODIL_OK && number == 3);
    MUST(cefrodil_moment(asked, &number) == CEFRODIL_OK && number == 6);
}

static void counts_by_each(void) {
    MUST(opened(1) == CEFRODIL_OK);
    counts(one, other);
    close_both();
    MUST(opened(1) == CEFRODIL_OK && cefrodil_hold(one) == CEFRODIL_OK);
    counts(one, one);
    close_both();
}

/* The cache has the key 1 alone, with the value 7, 8 of its fourth change. */
static void many(cefrodil_handle *handle) {
    uint64_t keys[4] = {2, 1, 3, 1}, values[8] = {1, 2, 3, 4, 5, 6, 0, 0};
    const uint64_t expected[8] = {1, 2, 7, 8, 5, 6, 7, 8};
    answers[0].status = answers[3].status = 99, answers[1].unused = 99;
    MUST(cefrodil_get_many(handle, keys, 4, values, 7, answers, 3) == CEFRODIL_BAD_COUNT);
    MUST(cefrodil_get_many(handle, keys, 3, values, 6, answers, 4) == CEFRODIL_BAD_COUNT);
    MUST(cefrodil_get_many(handle, keys, 4, values, 7, answers, 4) == CEFRODIL_WIDTH);
    MUST(cefrodil_get_many(handle, keys, 3, values, 8, answers, 3) == CEFRODIL_WIDTH);
    MUST(cefrodil_get_many(handle, keys, 0, values, 1, answers, 0) == CEFRODIL_WIDTH);
    MUST(values[2] == 3 && values[7] == 0 && answers[0].status == 99 && answers[3].status == 99);
    MUST(cefrodil_get_many(handle, keys, 0, values, 0, answers, 0) == CEFRODIL_OK && answers[0].status == 99);
    MUST(cefrodil_get_many(handle, NULL, 0, NULL, 0, NULL, 0) == CEFRODIL_OK);
    MUST(cefrodil_get_many(handle, keys, 4, values, 8, answers, 4) == CEFRODIL_OK);
    for (size_t i = 0; i < 8; i++) {
        MUST(values[i] == expected[i]);
    }
    for (size_t i = 0; i < 4; i++) {
        MUST(answers[i].status == (i % 2 == 0 ? CEFRODIL_ABSENT : CEFRODIL_OK));
        MUST(answers[i].at == 4 && answers[i].since == (i % 2 == 0 ? 0 : 4) && answers[i].unused == 0);
    }
}

static void many_by_each(void) {
    uint64_t value[2] = {7, 8};
    MUST(opened(1) == CEFRODIL_OK);
    for (int i = 0; i < 4; i++) {
        MUST(cefrodil_put(one, 1, value, 2, &reply) == CEFRODIL_OK);
    }
    many(one);
    many(other);
    MUST(cefrodil_hold(one) == CEFRODIL_OK);
    many(one);
    many(other);
    close_both();
}

/* With every item put just now, and each found since, a put finds none to evict or evicts one. */
static void evictions(void) {
    uint64_t value[2] = {0, 0};
    int evicted = 0;
    MUST(opened(1) == CEFRODIL_OK);
    for (uint64_t key = 0; key < 200; key++) {
        uint32_t status = cefrodil_put(one, key, value, 2, &reply);
        MUST(status == CEFRODIL_OK || status == CEFRODIL_NO_PATH || status == CEFRODIL_ALL_RECENT);
        evicted += status == CEFRODIL_OK && reply.put == CEFRODIL_PUT_EVICTED;
    }
    MUST(evicted > 0);
    close_both();
}

/* One handle is closed first, which holds or not: the other can still look up. A handle that was moved is the same one. */
static void last_close(bool holds) {
    uint64_t value[2] = {7, 8}, found[2];
    MUST(opened(1) == CEFRODIL_OK && cefrodil_put(one, 500, value, 2, &reply) == CEFRODIL_OK);
    cefrodil_handle moved = cefrodil_move(other);
    MUST(moved.live_ && !other->live_ && cefrodil_get(&moved, 500, found, 2, &reply) == CEFRODIL_OK);
    MUST(cefrodil_get(other, 500, found, 2, &reply) == CEFRODIL_CLOSED);
    *other = cefrodil_move(&moved);
    MUST(!holds || cefrodil_hold(one) == CEFRODIL_OK);
    MUST(cefrodil_close(one) == CEFRODIL_OK && cefrodil_close(one) == CEFRODIL_CLOSED);
    MUST(cefrodil_get(other, 500, found, 2, &reply) == CEFRODIL_OK && found[1] == 8);
    MUST(cefrodil_remove(other, 500, &reply) == CEFRODIL_OK && cefrodil_close(other) == CEFRODIL_OK);
    MUST(cefrodil_get(other, 500, found, 2, &reply) == CEFRODIL_CLOSED);
}

/* Twice the same key, whose value is 1, 2, 3 and so on. */
static void two_of_each_width(void) {
    for (size_t words = 1; words <= 8; words++) {
        uint64_t value[8] = {1, 2, 3, 4, 5, 6, 7, 8}, keys[2] = {words, words}, found[17] = {0};
        MUST(cefrodil_open(&shape, 1, words, handles, 2) == CEFRODIL_OK);
        MUST(cefrodil_put(one, words, value, words, &reply) == CEFRODIL_OK);
        MUST(cefrodil_get_many(other, keys, 2, found, 2 * words, answers, 2) == CEFRODIL_OK);
        for (size_t i = 0; i < 17; i++) {
            MUST(found[i] == (i < 2 * words ? i % words + 1 : 0));
        }
        close_both();
    }
}

enum { MOST = 1024 };

static cefrodil_handle crowd[MOST + 1];

/* The most handles that a cache can have, and one more. */
static void most_handles(uint32_t shards) {
    uint64_t value = 7, found;
    MUST(cefrodil_open(&shape, shards, 1, crowd, MOST + 1) == CEFRODIL_BAD_HANDLES && !crowd[0].live_);
    MUST(cefrodil_open(&shape, shards, 1, crowd, MOST) == CEFRODIL_OK && !crowd[MOST].live_);
    MUST(cefrodil_put(&crowd[MOST - 1], 1, &value, 1, &reply) == CEFRODIL_OK);
    for (int i = 0; i < MOST; i++) {
        found = 0;
        MUST(cefrodil_get(&crowd[i], 1, &found, 1, &reply) == CEFRODIL_OK && found == 7 && reply.at == 1);
        MUST(cefrodil_close(&crowd[i]) == CEFRODIL_OK);
    }
}

int main(void) {
    MUST(cefrodil_shape_for_items(20, 1, &shape) == CEFRODIL_OK);
    refused_openings();
    in_use();
    closed();
    calls(1);
    calls(8);
    counts_by_each();
    many_by_each();
    evictions();
    last_close(false);
    last_close(true);
    most_handles(1);
    most_handles(4);
    two_of_each_width();
    return outcome("statuses");
}
