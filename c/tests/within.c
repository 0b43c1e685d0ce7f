/* A put with many tries gets the turn that a single try was just refused. In a batch each key has a try of its own. A thread that lists the
 * entries again and again has the turn most of the time. */
#include "cefrodil.h"
#include "must.h"
#include <pthread.h>
#include <stdatomic.h>
#include <stdlib.h>

enum { KEYS = 20000, ENTRY = 2, PUTS = 20, MOST_TRIES = 100000000, BATCH = 40 };

static atomic_int is_over;

static void *list_all(void *handle) {
    uint64_t *entries = (uint64_t *)calloc(KEYS * ENTRY, sizeof *entries), count;
    MUST(entries != NULL);
    while (entries != NULL && !atomic_load(&is_over)) {
        cefrodil_status status = cefrodil_entries((cefrodil_handle *)handle, entries, KEYS * ENTRY, &count);
        MUST(status == CEFRODIL_OK || status == CEFRODIL_HELD);
    }
    free(entries);
    return NULL;
}

/* Tries until a try is refused, and then once more with many tries. */
static void put_after_held(cefrodil_handle *handle, uint64_t key) {
    cefrodil_reply reply;
    uint64_t value = key;
    cefrodil_status status = CEFRODIL_OK;
    for (long n = 0; n < MOST_TRIES && status == CEFRODIL_OK; n++) {
        status = cefrodil_put(handle, key, &value, 1, &reply);
    }
    MUST(status == CEFRODIL_HELD);
    MUST(cefrodil_put_within(handle, UINT32_MAX, key, &value, 1, &reply) == CEFRODIL_OK);
}

/* The puts that had the turn are the next changes, and the others changed nothing. Returns whether a put was held. */
static bool put_batch(cefrodil_handle *handle, uint64_t *made) {
    static uint64_t keys[BATCH], drawn;
    static cefrodil_put_answer answers[BATCH];
    bool held = false;
    drawn++;
    for (uint64_t i = 0; i < BATCH; i++) {
        keys[i] = (drawn * BATCH + i) % KEYS;
    }
    MUST(cefrodil_put_many(handle, keys, BATCH, keys, BATCH, answers, BATCH) == CEFRODIL_OK);
    for (size_t i = 0; i < BATCH; i++) {
        MUST(answers[i].status == CEFRODIL_OK || answers[i].status == CEFRODIL_HELD);
        *made += answers[i].status == CEFRODIL_OK;
        MUST(answers[i].reply.at == (answers[i].status == CEFRODIL_OK ? *made : 0));
        MUST(answers[i].reply.put == (answers[i].status == CEFRODIL_OK ? CEFRODIL_PUT_RENEWED : CEFRODIL_PUT_NOTHING));
        held = held || answers[i].status == CEFRODIL_HELD;
    }
    return held;
}

/* Until puts of batches were held and others were not. */
static void put_batches(cefrodil_handle *handle) {
    cefrodil_reply reply;
    uint64_t key = 0;
    MUST(cefrodil_put_within(handle, UINT32_MAX, key, &key, 1, &reply) == CEFRODIL_OK);
    uint64_t made = reply.at;
    bool held = false;
    for (long n = 0; n < MOST_TRIES && (!held || made < reply.at + PUTS * BATCH); n++) {
        held = put_batch(handle, &made) || held;
    }
    MUST(held && made >= reply.at + PUTS * BATCH);
}

int main(void) {
    pthread_t lister;
    cefrodil_shape shape;
    cefrodil_reply reply;
    cefrodil_handle handles[2] = {CEFRODIL_EMPTY, CEFRODIL_EMPTY};
    MUST(cefrodil_shape_for_items(KEYS, 1, &shape) == CEFRODIL_OK && cefrodil_open(&shape, 1, 1, handles, 2) == CEFRODIL_OK);
    for (uint64_t key = 0; key < KEYS; key++) {
        MUST(cefrodil_put(&handles[0], key, &key, 1, &reply) == CEFRODIL_OK);
    }
    MUST(pthread_create(&lister, NULL, list_all, &handles[1]) == 0);
    for (uint64_t key = 0; key < PUTS; key++) {
        put_after_held(&handles[0], key);
    }
    put_batches(&handles[0]);
    atomic_store(&is_over, 1);
    MUST(pthread_join(lister, NULL) == 0);
    MUST(cefrodil_close(&handles[0]) == CEFRODIL_OK && cefrodil_close(&handles[1]) == CEFRODIL_OK);
    return outcome("within");
}
