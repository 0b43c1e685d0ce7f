/* A program keeps objects behind the cache: the value of a key is the number of its object. Each object that it makes is in the cache, or was
 * returned to be freed, and none twice. */
#include "cefrodil.h"
#include "must.h"

enum { OBJECTS = 1000, ITEMS = 100, KEYS = 300 };

static cefrodil_handle handle = CEFRODIL_EMPTY;
static int freed[OBJECTS];

static void free_object(uint64_t object) {
    MUST(object < OBJECTS);
    if (object < OBJECTS) {
        freed[object]++;
    }
}

/* Puts an object under its key, and frees the one that gives way. */
static void keep(uint64_t object) {
    cefrodil_reply reply;
    uint64_t old = OBJECTS;
    MUST(cefrodil_swap(&handle, object * 7 % KEYS, &object, 1, &old, 1, &reply) == CEFRODIL_OK);
    if (reply.put != CEFRODIL_PUT_STORED) {
        MUST(reply.since != 0);
        free_object(old);
    } else {
        MUST(old == OBJECTS && reply.since == 0);
    }
}

/* Evicts an object of the shard of this key, if it has one, and frees it. */
static void shed(uint64_t near) {
    cefrodil_reply reply;
    uint64_t old = OBJECTS;
    const uint32_t status = cefrodil_evict(&handle, near, &old, 1, &reply);
    MUST(status == CEFRODIL_OK ? old * 7 % KEYS == reply.evicted && reply.since != 0 : status == CEFRODIL_ABSENT && old == OBJECTS);
    if (status == CEFRODIL_OK) {
        free_object(old);
    }
}

/* Takes every key out, and frees its object. */
static void empty(void) {
    for (uint64_t key = 0; key < KEYS; key++) {
        cefrodil_reply reply;
        uint64_t old = OBJECTS;
        const uint32_t status = cefrodil_take(&handle, key, &old, 1, &reply);
        MUST(status == CEFRODIL_OK || (status == CEFRODIL_ABSENT && old == OBJECTS));
        if (status == CEFRODIL_OK) {
            free_object(old);
        }
    }
}

static void keep_all(void) {
    for (int i = 0; i < OBJECTS; i++) {
        freed[i] = 0;
    }
    for (uint64_t object = 0; object < OBJECTS; object++) {
        keep(object);
        if (object % 5 == 0) {
            shed(object);
        }
    }
    empty();
    for (int i = 0; i < OBJECTS; i++) {
        MUST(freed[i] == 1);
    }
    MUST(cefrodil_close(&handle) == CEFRODIL_OK);
}

/* An object takes the place of another one only if that is the one that was seen. */
static void replace(void) {
    cefrodil_reply reply;
    uint64_t value = 70, old = 0;
    MUST(cefrodil_swap(&handle, 7, &value, 1, &old, 1, &reply) == CEFRODIL_OK && reply.put == CEFRODIL_PUT_STORED && reply.at == 1);
    value = 71;
    MUST(cefrodil_swap_if(&handle, 7, 2, &value, 1, &old, 1, &reply) == CEFRODIL_CHANGED && reply.since == 1 && old == 0);
    MUST(cefrodil_swap_if(&handle, 8, 1, &value, 1, &old, 1, &reply) == CEFRODIL_ABSENT && reply.at == 1 && old == 0);
    MUST(cefrodil_swap_if(&handle, 7, 1, &value, 1, &old, 1, &reply) == CEFRODIL_OK && reply.at == 2 && reply.since == 1 && old == 70);
    MUST(reply.put == CEFRODIL_PUT_RENEWED);
    MUST(cefrodil_take_if(&handle, 7, 1, &old, 1, &reply) == CEFRODIL_CHANGED && reply.since == 2 && old == 70);
    MUST(cefrodil_take_if(&handle, 7, 2, &old, 1, &reply) == CEFRODIL_OK && reply.at == 3 && reply.since == 2 && old == 71);
    MUST(reply.put == CEFRODIL_PUT_NOTHING);
    MUST(cefrodil_take_if(&handle, 7, 2, &old, 1, &reply) == CEFRODIL_ABSENT && reply.at == 3 && old == 71);
    MUST(cefrodil_put(&handle, 7, &value, 1, &reply) == CEFRODIL_OK && reply.at == 4);
    MUST(cefrodil_take(&handle, 7, &old, 1, &reply) == CEFRODIL_OK && reply.at == 5 && reply.since == 4 && old == 71);
    MUST(cefrodil_take(&handle, 7, &old, 1, &reply) == CEFRODIL_ABSENT && reply.at == 5 && old == 71);
    MUST(cefrodil_swap_if_absent(&handle, 7, &value, 1, &old, 1, &reply) == CEFRODIL_OK && reply.at == 6 && reply.since == 0 && old == 71);
    MUST(reply.put == CEFRODIL_PUT_STORED);
    value = 72;
    MUST(cefrodil_swap_if_absent(&handle, 7, &value, 1, &old, 1, &reply) == CEFRODIL_PRESENT && reply.since == 6 && old == 71);
    MUST(reply.put == CEFRODIL_PUT_NOTHING);
    /* One of the two widths is wrong. */
    MUST(cefrodil_swap(&handle, 7, &value, 1, &old, 2, &reply) == CEFRODIL_WIDTH && cefrodil_swap(&handle, 7, &value, 2, &old, 1, &reply) == CEFRODIL_WIDTH);
    MUST(old == 71 && cefrodil_close(&handle) == CEFRODIL_OK);
}

/* In a shard that is to hold one key, another one leaves for a new one, though items are free. */
static void bound(void) {
    cefrodil_reply reply;
    uint64_t value = 70, old = 0, len = 9;
    MUST(cefrodil_swap_bounded(&handle, 7, 1, &value, 1, &old, 1, &reply) == CEFRODIL_OK && reply.put == CEFRODIL_PUT_STORED && reply.at == 1 && old == 0);
    value = 71;
    MUST(cefrodil_swap_bounded(&handle, 7, 1, &value, 1, &old, 1, &reply) == CEFRODIL_OK && reply.put == CEFRODIL_PUT_RENEWED && reply.at == 2);
    MUST(reply.since == 1 && old == 70);
    MUST(cefrodil_swap_if_absent_bounded(&handle, 7, 1, &value, 1, &old, 1, &reply) == CEFRODIL_PRESENT && reply.since == 2 && old == 70);
    MUST(reply.put == CEFRODIL_PUT_NOTHING);
    value = 80;
    MUST(cefrodil_swap_bounded(&handle, 8, 1, &value, 1, &old, 1, &reply) == CEFRODIL_OK && reply.put == CEFRODIL_PUT_EVICTED && reply.at == 4);
    MUST(reply.evicted == 7 && reply.since == 2 && old == 71);
    value = 90;
    MUST(cefrodil_swap_if_absent_bounded(&handle, 9, 1, &value, 1, &old, 1, &reply) == CEFRODIL_OK && reply.put == CEFRODIL_PUT_EVICTED);
    MUST(reply.at == 6 && reply.evicted == 8 && reply.since == 4 && old == 80 && cefrodil_len(&handle, &len) == CEFRODIL_OK && len == 1);
    MUST(cefrodil_swap_bounded(&handle, 7, 1, &value, 1, &old, 2, &reply) == CEFRODIL_WIDTH && old == 80);
    /* The same without the entry. */
    MUST(cefrodil_put_bounded(&handle, 9, 1, &value, 1, &reply) == CEFRODIL_OK && reply.put == CEFRODIL_PUT_RENEWED && reply.at == 7);
    MUST(cefrodil_put_if_absent_bounded(&handle, 9, 1, &value, 1, &reply) == CEFRODIL_PRESENT && reply.since == 7 && reply.put == CEFRODIL_PUT_NOTHING);
    MUST(cefrodil_put_bounded(&handle, 10, 2, &value, 1, &reply) == CEFRODIL_OK && reply.put == CEFRODIL_PUT_STORED && reply.at == 8);
    MUST(cefrodil_remove(&handle, 10, &reply) == CEFRODIL_OK && cefrodil_put_bounded(&handle, 11, 1, &value, 1, &reply) == CEFRODIL_OK);
    MUST(reply.put == CEFRODIL_PUT_EVICTED && reply.evicted == 9 && reply.since == 0 && reply.at == 11);
    MUST(cefrodil_put_if_absent_bounded(&handle, 12, 1, &value, 1, &reply) == CEFRODIL_OK && reply.put == CEFRODIL_PUT_EVICTED && reply.evicted == 11);
    MUST(cefrodil_put_bounded(&handle, 12, 1, &value, 2, &reply) == CEFRODIL_WIDTH && cefrodil_close(&handle) == CEFRODIL_OK);
}

/* A cache with room for ITEMS keys, in one shard or in several. The handle tries, or holds the turns. */
static void opened(uint32_t shards, bool hold) {
    cefrodil_shape shape;
    MUST(cefrodil_shape_for_items(ITEMS, shards, &shape) == CEFRODIL_OK && cefrodil_open(&shape, shards, 1, &handle, 1) == CEFRODIL_OK);
    MUST(!hold || cefrodil_hold(&handle) == CEFRODIL_OK);
}

int main(void) {
    for (uint32_t shards = 1; shards <= 4; shards *= 4) {
        for (int hold = 0; hold < 2; hold++) {
            opened(shards, hold != 0);
            keep_all();
            opened(shards, hold != 0);
            replace();
            opened(1, hold != 0);
            bound();
        }
    }
    return outcome("objects");
}
