/* A rate limiter for a service of several threads: each client may make LIMIT requests in a window of time. The cache holds a window
 * and a count for each client. Threads write all the time, so the cache has many shards. Reads as C and as C++. */
#include "cefrodil.h"
#include <pthread.h>
#include <sched.h>
#include <stdbool.h>
#include <stdio.h>
#include <stdlib.h>

enum { THREADS = 4, SHARDS = 16, CLIENTS = 1000, WINDOWS = 3, LIMIT = 5, REQUESTS = 4, WORDS = 2, TRIES = 100 };

/* A thread of the service, and how many requests it let through. */
struct worker {
    pthread_t thread;
    cefrodil_handle *handle;
    uint64_t window;
    unsigned long allowed;
};

static cefrodil_handle handles[THREADS];

static void must(uint32_t status, const char *what) {
    if (status != CEFRODIL_OK) {
        fprintf(stderr, "%s: %s\n", what, cefrodil_text(status));
        exit(1);
    }
}

/* Whether to ask again: another thread had the shard's turn, or counted a request of the same client. */
static bool lost_a_race(uint32_t status) {
    return status == CEFRODIL_BUSY || status == CEFRODIL_HELD || status == CEFRODIL_CHANGED;
}

/* A client begins with no requests. */
static void greet(cefrodil_handle *handle, uint64_t client) {
    const uint64_t value[WORDS] = {0, 0};
    cefrodil_reply reply;
    must(cefrodil_put_within(handle, TRIES, client, value, WORDS, &reply), "greet");
}

/* Counts one request of the client in this window, unless it has made LIMIT of them. */
static bool allow(cefrodil_handle *handle, uint64_t client, uint64_t window) {
    for (;;) {
        uint64_t value[WORDS] = {0, 0};
        cefrodil_reply reply;
        uint32_t status = cefrodil_get_or_turn(handle, client, value, WORDS, &reply);
        if (status == CEFRODIL_ABSENT) {
            return false;
        }
        if (status == CEFRODIL_OK) {
            uint64_t count = value[0] == window ? value[1] : 0;
            if (count == LIMIT) {
                return false;
            }
            value[0] = window;
            value[1] = count + 1;
            status = cefrodil_put_if(handle, client, reply.since, value, WORDS, &reply);
            if (status == CEFRODIL_OK) {
                return true;
            }
        }
        if (!lost_a_race(status)) {
            must(status, "allow");
        }
        sched_yield();
    }
}

/* Each client sends REQUESTS requests to each thread. */
static void *serve(void *argument) {
    struct worker *worker = (struct worker *)argument;
    for (uint64_t request = 0; request < (uint64_t)REQUESTS * CLIENTS; request++) {
        worker->allowed += allow(worker->handle, request % CLIENTS, worker->window);
    }
    return NULL;
}

/* How many requests all threads let through in this window. */
static unsigned long serve_all(uint64_t window) {
    struct worker workers[THREADS];
    unsigned long allowed = 0;
    for (int i = 0; i < THREADS; i++) {
        workers[i].handle = &handles[i];
        workers[i].window = window;
        workers[i].allowed = 0;
        if (pthread_create(&workers[i].thread, NULL, serve, &workers[i]) != 0) {
            exit(1);
        }
    }
    for (int i = 0; i < THREADS; i++) {
        pthread_join(workers[i].thread, NULL);
        allowed += workers[i].allowed;
    }
    return allowed;
}

int main(void) {
    cefrodil_shape shape;
    unsigned long allowed = 0;
    must(cefrodil_shape_for_items(CLIENTS, SHARDS, &shape), "shape");
    must(cefrodil_open(&shape, SHARDS, WORDS, handles, THREADS), "open");
    for (uint64_t client = 0; client < CLIENTS; client++) {
        greet(&handles[0], client);
    }
    for (uint64_t window = 1; window <= WINDOWS; window++) {
        allowed += serve_all(window);
    }
    for (int i = 0; i < THREADS; i++) {
        must(cefrodil_close(&handles[i]), "close");
    }
    printf("%lu of %lu requests allowed\n", allowed, (unsigned long)WINDOWS * THREADS * REQUESTS * CLIENTS);
    return allowed != (unsigned long)WINDOWS * LIMIT * CLIENTS;
}
