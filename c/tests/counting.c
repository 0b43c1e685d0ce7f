/* Threads count keys that no thread has put yet. All of them see that a key is absent before any of them puts it. The first to put it puts 1,
 * and only if the key is absent, so no count is lost. */
#include "cefrodil.h"
#include "must.h"
#include <pthread.h>
#include <sched.h>

enum { THREADS = 4, KEYS = 2000 };

static cefrodil_handle handles[THREADS];
static pthread_barrier_t all_looked;

/* One more than what the lookup found. */
static uint32_t count(cefrodil_handle *handle, uint64_t key, uint32_t looked, uint64_t found, uint64_t since) {
    cefrodil_reply reply;
    if (looked == CEFRODIL_ABSENT) {
        uint64_t one = 1;
        return cefrodil_put_if_absent(handle, key, &one, 1, &reply);
    }
    if (looked != CEFRODIL_OK) {
        return looked;
    }
    found++;
    return cefrodil_put_if(handle, key, since, &found, 1, &reply);
}

/* A key that cannot be put is found out at the end: a thread that gave up would leave the others waiting. */
static void *count_all(void *argument) {
    cefrodil_handle *handle = (cefrodil_handle *)argument;
    for (uint64_t key = 0; key < KEYS; key++) {
        uint64_t found = 0;
        cefrodil_reply reply;
        uint32_t looked = cefrodil_get(handle, key, &found, 1, &reply);
        pthread_barrier_wait(&all_looked);
        uint32_t status = count(handle, key, looked, found, reply.since);
        while (status == CEFRODIL_BUSY || status == CEFRODIL_HELD || status == CEFRODIL_CHANGED || status == CEFRODIL_PRESENT) {
            sched_yield();
            looked = cefrodil_get(handle, key, &found, 1, &reply);
            status = count(handle, key, looked, found, reply.since);
        }
    }
    return NULL;
}

/* With one shard or several. */
static void count_in(uint32_t shards) {
    cefrodil_shape shape;
    cefrodil_reply reply;
    pthread_t threads[THREADS];
    MUST(cefrodil_shape_for_items(2 * KEYS, shards, &shape) == CEFRODIL_OK);
    MUST(cefrodil_open(&shape, shards, 1, handles, THREADS) == CEFRODIL_OK);
    for (int i = 0; i < THREADS; i++) {
        MUST(pthread_create(&threads[i], NULL, count_all, &handles[i]) == 0);
    }
    for (int i = 0; i < THREADS; i++) {
        MUST(pthread_join(threads[i], NULL) == 0);
    }
    for (uint64_t key = 0; key < KEYS; key++) {
        uint64_t value = 0;
        MUST(cefrodil_get_or_turn(&handles[0], key, &value, 1, &reply) == CEFRODIL_OK && value == THREADS);
    }
    for (int i = 0; i < THREADS; i++) {
        MUST(cefrodil_close(&handles[i]) == CEFRODIL_OK);
    }
}

int main(void) {
    MUST(pthread_barrier_init(&all_looked, NULL, THREADS) == 0);
    count_in(1);
    count_in(4);
    return outcome("counting");
}
