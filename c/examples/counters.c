/* Threads add to counters of the cache, and no addition is lost: each writes only over what it has read. Reads as C and as C++.
 *
 * usage: counters [ADDITIONS]     how many each thread makes; none: 20000 */
#include "cefrodil.h"
#include <pthread.h>
#include <sched.h>
#include <stdio.h>
#include <stdlib.h>

enum { THREADS = 4, COUNTERS = 8 };

static cefrodil_handle handles[THREADS];
static uint64_t additions = 20000;

static void must(uint32_t status, const char *what) {
    if (status != CEFRODIL_OK) {
        fprintf(stderr, "%s: %s\n", what, cefrodil_text(status));
        exit(1);
    }
}

/* Reads the counter, and puts one more if nobody has put it since. */
static uint32_t add_one(cefrodil_handle *handle, uint64_t key) {
    uint64_t value = 0;
    cefrodil_reply reply;
    uint32_t status = cefrodil_get(handle, key, &value, 1, &reply);
    if (status != CEFRODIL_OK) {
        return status;
    }
    value++;
    return cefrodil_put_if(handle, key, reply.since, &value, 1, &reply);
}

static void *add_many(void *argument) {
    cefrodil_handle *handle = (cefrodil_handle *)argument;
    for (uint64_t i = 0; i < additions; i++) {
        uint32_t status = add_one(handle, i % COUNTERS);
        while (status == CEFRODIL_BUSY || status == CEFRODIL_HELD || status == CEFRODIL_CHANGED) {
            sched_yield();
            status = add_one(handle, i % COUNTERS);
        }
        must(status, "add");
    }
    return NULL;
}

int main(int argc, char **argv) {
    cefrodil_shape shape;
    cefrodil_reply reply;
    pthread_t threads[THREADS];
    uint64_t sum = 0;
    if (argc > 1) {
        additions = strtoull(argv[1], NULL, 10);
    }
    must(cefrodil_shape_for_items(100, 1, &shape), "shape");
    must(cefrodil_open(&shape, 1, 1, handles, THREADS), "open");
    for (uint64_t key = 0; key < COUNTERS; key++) {
        uint64_t none = 0;
        must(cefrodil_put(&handles[0], key, &none, 1, &reply), "put");
    }
    for (int i = 0; i < THREADS; i++) {
        if (pthread_create(&threads[i], NULL, add_many, &handles[i]) != 0) {
            return 1;
        }
    }
    for (int i = 0; i < THREADS; i++) {
        pthread_join(threads[i], NULL);
    }
    for (uint64_t key = 0; key < COUNTERS; key++) {
        uint64_t value = 0;
        must(cefrodil_get_or_turn(&handles[0], key, &value, 1, &reply), "get");
        sum += value;
    }
    for (int i = 0; i < THREADS; i++) {
        must(cefrodil_close(&handles[i]), "close");
    }
    printf("%llu additions\n", (unsigned long long)sum);
    return sum != THREADS * additions;
}
