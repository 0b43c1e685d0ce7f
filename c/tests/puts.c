/* Puts of many keys in one call answer as puts one after the other do: two caches get the same entries, one in each way. */
#include "cefrodil.h"
#include "must.h"

enum { MOST = 40, WORDS = 2 };

struct pair {
    cefrodil_handle many, single;
};

static uint64_t drawn = 1;
static int refused;

static uint64_t draw(uint64_t below) {
    drawn = drawn * 6364136223846793005 + 1442695040888963407;
    return (drawn >> 33) % below;
}

static bool is_same(const cefrodil_put_answer *answer, cefrodil_status status, const cefrodil_reply *reply) {
    return answer->status == status && answer->reply.at == reply->at && answer->reply.since == reply->since && answer->reply.evicted == reply->evicted &&
           answer->reply.moves == reply->moves && answer->reply.put == reply->put && answer->unused == 0;
}

/* Puts `count` entries into both. */
static void put_in_both(struct pair *pair, size_t count, uint64_t keys) {
    uint64_t key[MOST], value[MOST * WORDS];
    cefrodil_put_answer answers[MOST];
    for (size_t i = 0; i < count; i++) {
        key[i] = draw(keys);
        value[i * WORDS] = draw(1000);
        value[i * WORDS + 1] = key[i];
    }
    MUST(cefrodil_put_many(&pair->many, key, count, value, count * WORDS, answers, count) == CEFRODIL_OK);
    for (size_t i = 0; i < count; i++) {
        cefrodil_reply reply;
        const cefrodil_status status = cefrodil_put(&pair->single, key[i], &value[i * WORDS], WORDS, &reply);
        MUST(is_same(&answers[i], status, &reply));
        refused += status != CEFRODIL_OK;
    }
}

static void have_same_values(struct pair *pair, uint64_t keys) {
    for (uint64_t key = 0; key < keys; key++) {
        uint64_t one[WORDS] = {0, 0}, other[WORDS] = {0, 0};
        cefrodil_reply reply, same;
        MUST(cefrodil_get(&pair->many, key, one, WORDS, &reply) == cefrodil_get(&pair->single, key, other, WORDS, &same));
        MUST(one[0] == other[0] && one[1] == other[1] && reply.at == same.at && reply.since == same.since);
    }
    MUST(cefrodil_close(&pair->many) == CEFRODIL_OK && cefrodil_close(&pair->single) == CEFRODIL_OK);
}

/* Two caches of so many shards, by handles that try, or that hold the turns. */
static void alike(const cefrodil_shape *shape, uint32_t shards, bool hold, int rounds, uint64_t keys) {
    struct pair pair = {CEFRODIL_EMPTY, CEFRODIL_EMPTY};
    MUST(cefrodil_open(shape, shards, WORDS, &pair.many, 1) == CEFRODIL_OK && cefrodil_open(shape, shards, WORDS, &pair.single, 1) == CEFRODIL_OK);
    MUST(!hold || (cefrodil_hold(&pair.many) == CEFRODIL_OK && cefrodil_hold(&pair.single) == CEFRODIL_OK));
    for (int n = 0; n < rounds; n++) {
        put_in_both(&pair, n % (MOST + 1), keys);
    }
    have_same_values(&pair, keys);
}

static void misused(const cefrodil_shape *shape) {
    cefrodil_handle handle = CEFRODIL_EMPTY;
    const uint64_t keys[2] = {1, 2}, values[4] = {10, 11, 20, 21};
    cefrodil_put_answer answers[2] = {{{99, 99, 99, 99, 99}, 99, 99}, {{99, 99, 99, 99, 99}, 99, 99}};
    const cefrodil_reply untouched = answers[0].reply;
    uint64_t len = 99;
    MUST(cefrodil_open(shape, 1, WORDS, &handle, 1) == CEFRODIL_OK);
    MUST(cefrodil_put_many(&handle, keys, 2, values, 4, answers, 1) == CEFRODIL_BAD_COUNT);
    MUST(cefrodil_put_many(&handle, NULL, 0, NULL, 0, NULL, 0) == CEFRODIL_OK);
    MUST(answers[0].status == 99 && answers[0].reply.at == untouched.at && cefrodil_len(&handle, &len) == CEFRODIL_OK && len == 0);
    MUST(cefrodil_close(&handle) == CEFRODIL_OK);
}

int main(void) {
    cefrodil_shape shape, narrow, large, of_shard;
    MUST(cefrodil_shape_for_items(30, 1, &shape) == CEFRODIL_OK && cefrodil_shape_for_items(240000, 1, &large) == CEFRODIL_OK);
    MUST(cefrodil_shape_for_items(30, 4, &of_shard) == CEFRODIL_OK);
    shape.items = 30;
    /* Full buckets without moves, so some puts are refused. */
    narrow = (cefrodil_shape){.buckets = 8, .items = 32, .stripes = 1, .depth = 0, .tries = 4, .mix = CEFRODIL_MIX_FULL, .limit = 400};
    /* Large enough that words are loaded ahead. */
    MUST(large.buckets >= 131072);
    for (int hold = 0; hold < 2; hold++) {
        alike(&shape, 1, hold != 0, 100, 60);
        alike(&of_shard, 4, hold != 0, 100, 60);
        refused = 0;
        alike(&narrow, 1, hold != 0, 100, 60);
        MUST(refused > 0);
        alike(&large, 1, hold != 0, 3000, 250000);
    }
    misused(&shape);
    return outcome("puts");
}
