/* A cache of host names for a server of several threads, each with a handle. If a thread doesn't find a name, it resolves the name the
 * slow way, and queues the answer for the one thread that writes. That one holds the turns, so none of its puts is held. The key is a hash of
 * the name. The value keeps a second hash, which tells apart names of one key. If strangers choose the names, take a keyed hash. Reads as C
 * and as C++. */
#include "cefrodil.h"
#include <pthread.h>
#include <stdio.h>
#include <stdlib.h>

enum { THREADS = 3, NAMES = 500, LOOKUPS = 50000, WORDS = 2, QUEUE = 64 };

/* An answer on its way to the writer. */
struct resolved {
    uint64_t key;
    uint64_t value[WORDS];
};

/* The writer's handle is the last. */
static cefrodil_handle handles[THREADS + 1];
/* What the lock guards: the queue, how many threads may still fill it, and what those that ended have counted. */
static struct resolved queue[QUEUE];
static int queued, serving = THREADS;
static unsigned long all_hits, all_wrong;
static pthread_mutex_t lock = PTHREAD_MUTEX_INITIALIZER;
static pthread_cond_t changed = PTHREAD_COND_INITIALIZER;

static uint64_t hash(const char *name, uint64_t basis) {
    for (; *name != '\0'; name++) {
        basis = (basis ^ (unsigned char)*name) * 1099511628211u;
    }
    return basis;
}

/* The slow way: asks a name server. */
static uint32_t resolve(const char *name) {
    return 0x0A000000u + (uint32_t)strtoul(name + 4, NULL, 10);
}

/* Queues an answer for the writer. If the queue is full, the name is resolved again later. */
static void offer(const struct resolved *answer) {
    pthread_mutex_lock(&lock);
    if (queued < QUEUE) {
        queue[queued++] = *answer;
        pthread_cond_signal(&changed);
    }
    pthread_mutex_unlock(&lock);
}

/* Takes an answer from the queue. False if there is none and no thread can queue another. */
static bool take(struct resolved *answer) {
    pthread_mutex_lock(&lock);
    while (queued == 0 && serving > 0) {
        pthread_cond_wait(&changed, &lock);
    }
    const bool some = queued > 0;
    if (some) {
        *answer = queue[--queued];
    }
    pthread_mutex_unlock(&lock);
    return some;
}

static uint32_t look_up(cefrodil_handle *handle, const char *name, unsigned long *hits) {
    struct resolved answer = {hash(name, 14695981039346656037u), {0, 0}};
    uint64_t check = hash(name, 1);
    if (cefrodil_get(handle, answer.key, answer.value, WORDS, NULL) == CEFRODIL_OK && answer.value[0] == check) {
        ++*hits;
        return (uint32_t)answer.value[1];
    }
    /* The key is absent, or another name has it, or the lookup was busy. If addresses change, let the thread that writes resolve the name. */
    answer.value[0] = check;
    answer.value[1] = resolve(name);
    offer(&answer);
    return (uint32_t)answer.value[1];
}

static void *serve(void *argument) {
    cefrodil_handle *handle = (cefrodil_handle *)argument;
    unsigned long hits = 0, wrong = 0;
    char name[32];
    for (int i = 0; i < LOOKUPS; i++) {
        snprintf(name, sizeof name, "host%d", i * 7 % NAMES);
        wrong += look_up(handle, name, &hits) != resolve(name);
    }
    pthread_mutex_lock(&lock);
    all_hits += hits;
    all_wrong += wrong;
    serving--;
    pthread_cond_signal(&changed);
    pthread_mutex_unlock(&lock);
    return NULL;
}

int main(void) {
    cefrodil_handle *const writer = &handles[THREADS];
    cefrodil_shape shape;
    cefrodil_reply reply;
    struct resolved answer;
    uint64_t last = 0, found[WORDS];
    unsigned long unput = 0;
    pthread_t threads[THREADS];
    if (cefrodil_shape_for_items(2 * NAMES, 1, &shape) != CEFRODIL_OK || cefrodil_open(&shape, 1, WORDS, handles, THREADS + 1) != CEFRODIL_OK ||
        cefrodil_hold(writer) != CEFRODIL_OK) {
        return 1;
    }
    for (int i = 0; i < THREADS; i++) {
        if (pthread_create(&threads[i], NULL, serve, &handles[i]) != 0) {
            return 1;
        }
    }
    while (take(&answer)) {
        last = answer.key;
        /* If it fails, the name is resolved again later. */
        unput += cefrodil_put(writer, last, answer.value, WORDS, &reply) != CEFRODIL_OK;
    }
    const bool cached = cefrodil_get(writer, last, found, WORDS, NULL) == CEFRODIL_OK;
    for (int i = 0; i < THREADS; i++) {
        pthread_join(threads[i], NULL);
        cefrodil_close(&handles[i]);
    }
    cefrodil_close(writer);
    printf("%lu of %d names were cached\n", all_hits, THREADS * LOOKUPS);
    return !cached || unput != 0 || all_wrong != 0;
}
