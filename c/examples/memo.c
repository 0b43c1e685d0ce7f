/* A memoizer that several threads share: a function is computed once for each argument that the cache still holds. A thread that
 * computes a result tries once to keep it. If another thread has the turn, the result isn't kept. Reads as C and as C++. */
#include "cefrodil.h"
#include <pthread.h>
#include <stdio.h>

enum { THREADS = 4, NUMBERS = 10000, ITEMS = 8000 };

/* A thread with its handle, and how many results it computed. */
struct worker {
    pthread_t thread;
    cefrodil_handle *known;
    uint64_t sum;
    uint64_t computed, kept;
};

static uint64_t next(uint64_t number) {
    return number % 2 == 0 ? number / 2 : 3 * number + 1;
}

/* How many steps lead from the number to 1, if an even number is halved and an odd one becomes 3n + 1. */
static uint64_t steps(struct worker *worker, uint64_t number) {
    uint64_t result = 0;
    cefrodil_reply reply;
    if (number == 1 || cefrodil_get(worker->known, number, &result, 1, NULL) == CEFRODIL_OK) {
        return result;
    }
    result = 1 + steps(worker, next(number));
    worker->computed++;
    /* A result that isn't kept is computed again. */
    worker->kept += cefrodil_put(worker->known, number, &result, 1, &reply) == CEFRODIL_OK;
    return result;
}

static void *work(void *argument) {
    struct worker *worker = (struct worker *)argument;
    for (uint64_t number = 1; number <= NUMBERS; number++) {
        worker->sum += steps(worker, number);
    }
    return NULL;
}

/* The sum of all steps, without a memory. */
static uint64_t plain_sum(void) {
    uint64_t sum = 0;
    for (uint64_t first = 1; first <= NUMBERS; first++) {
        for (uint64_t number = first; number != 1; number = next(number)) {
            sum++;
        }
    }
    return sum;
}

int main(void) {
    static cefrodil_handle handles[THREADS];
    static struct worker workers[THREADS];
    cefrodil_shape shape;
    uint64_t expected = plain_sum(), computed = 0, kept = 0;
    bool right = true;
    if (cefrodil_shape_for_items(ITEMS, 1, &shape) != CEFRODIL_OK || cefrodil_open(&shape, 1, 1, handles, THREADS) != CEFRODIL_OK) {
        return 1;
    }
    for (int i = 0; i < THREADS; i++) {
        workers[i].known = &handles[i];
        if (pthread_create(&workers[i].thread, NULL, work, &workers[i]) != 0) {
            return 1;
        }
    }
    for (int i = 0; i < THREADS; i++) {
        pthread_join(workers[i].thread, NULL);
        right = right && workers[i].sum == expected;
        computed += workers[i].computed;
        kept += workers[i].kept;
        cefrodil_close(&handles[i]);
    }
    printf("%llu of %llu steps were computed, %llu of them kept\n", (unsigned long long)computed, (unsigned long long)(THREADS * expected),
           (unsigned long long)kept);
    return !right || computed >= THREADS * expected;
}
