/* A peek returns what the map holds, and is no use of the key. */
#include "cefrodil.h"
#include "must.h"

enum { ITEMS = 8 };

static cefrodil_shape shape;

/* What is done with a key before another one is evicted. */
enum touch { NOTHING, PEEK, GET };

static void put_new(cefrodil_handle *handle, uint64_t key, uint32_t put, cefrodil_reply *reply) {
    MUST(cefrodil_put(handle, key, &key, 1, reply) == CEFRODIL_OK && reply->put == put);
}

/* Fills a cache and evicts one key, which leaves no other key used. Touches this key, and returns the key that another put evicts. */
static uint64_t evicted_after(enum touch touch, uint64_t key, bool holds) {
    cefrodil_handle handle = CEFRODIL_EMPTY;
    cefrodil_reply reply;
    uint64_t value = 0;
    MUST(cefrodil_open(&shape, 1, 1, &handle, 1) == CEFRODIL_OK && (!holds || cefrodil_hold(&handle) == CEFRODIL_OK));
    for (uint64_t n = 1; n <= ITEMS; n++) {
        put_new(&handle, n, CEFRODIL_PUT_STORED, &reply);
    }
    put_new(&handle, ITEMS + 1, CEFRODIL_PUT_EVICTED, &reply);
    if (touch == PEEK) {
        MUST(cefrodil_peek(&handle, key, &value, 1, &reply) == CEFRODIL_OK && value == key && reply.at == ITEMS + 2 && reply.since == key);
    }
    if (touch == GET) {
        MUST(cefrodil_get(&handle, key, &value, 1, &reply) == CEFRODIL_OK && value == key);
    }
    put_new(&handle, ITEMS + 2, CEFRODIL_PUT_EVICTED, &reply);
    MUST(cefrodil_close(&handle) == CEFRODIL_OK);
    return reply.evicted;
}

static void is_no_use(bool holds) {
    const uint64_t victim = evicted_after(NOTHING, 0, holds);
    MUST(evicted_after(PEEK, victim, holds) == victim);
    MUST(evicted_after(GET, victim, holds) != victim);
}

/* By a handle that tries, or holds. */
static void answers(cefrodil_handle *handle) {
    uint64_t value[2] = {7, 70}, found[2] = {1, 2};
    cefrodil_reply reply;
    MUST(cefrodil_peek(handle, 5, found, 2, &reply) == CEFRODIL_ABSENT && reply.at == 0 && found[0] == 1 && found[1] == 2);
    MUST(cefrodil_put(handle, 5, value, 2, &reply) == CEFRODIL_OK && reply.at == 1);
    MUST(cefrodil_put(handle, 5, value, 2, &reply) == CEFRODIL_OK && reply.at == 2);
    MUST(cefrodil_remove(handle, 6, &reply) == CEFRODIL_ABSENT);
    MUST(cefrodil_peek(handle, 5, found, 2, &reply) == CEFRODIL_OK && found[0] == 7 && found[1] == 70);
    MUST(reply.at == 2 && reply.since == 2 && reply.evicted == 0 && reply.moves == 0 && reply.put == 0);
    MUST(cefrodil_remove(handle, 5, &reply) == CEFRODIL_OK && cefrodil_peek(handle, 5, found, 2, &reply) == CEFRODIL_ABSENT && reply.at == 3);
}

static void in_each_way(void) {
    for (int hold = 0; hold < 2; hold++) {
        cefrodil_handle handle = CEFRODIL_EMPTY;
        MUST(cefrodil_open(&shape, 1, 2, &handle, 1) == CEFRODIL_OK && (hold == 0 || cefrodil_hold(&handle) == CEFRODIL_OK));
        answers(&handle);
        MUST(cefrodil_close(&handle) == CEFRODIL_OK);
    }
}

int main(void) {
    shape = (cefrodil_shape){.buckets = 4, .items = ITEMS, .stripes = 4, .depth = 5, .tries = 8, .limit = UINT64_C(1) << 62};
    for (shape.policy = 0; shape.policy < 2; shape.policy++) {
        is_no_use(false);
        is_no_use(true);
    }
    shape.policy = CEFRODIL_POLICY_SCAN_RESISTANT;
    in_each_way();
    return outcome("peeks");
}
