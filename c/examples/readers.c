/* One thread holds the turns and writes, the others look up: every value is whole, and belongs to its key. Reads as C and as C++. */
#include "cefrodil.h"
#include <pthread.h>
#include <stdio.h>
#include <stdlib.h>

enum { READERS = 3, WORDS = 2, KEYS = 1000, LOOKUPS = 300000, PUTS = 300000 };

/* The writer's handle is the last. */
static cefrodil_handle handles[READERS + 1];

static void must(uint32_t status, const char *what) {
    if (status != CEFRODIL_OK) {
        fprintf(stderr, "%s: %s\n", what, cefrodil_text(status));
        exit(1);
    }
}

/* Each thread is started with a handle of its own, and joined before main closes the handle. */
static void *look_up(void *argument) {
    cefrodil_handle *handle = (cefrodil_handle *)argument;
    uint64_t value[WORDS];
    uint64_t last = 0;
    cefrodil_reply reply;
    for (uint64_t i = 0; i < LOOKUPS; i++) {
        uint64_t key = i * 7 % KEYS;
        uint32_t status = cefrodil_get(handle, key, value, WORDS, &reply);
        if (status == CEFRODIL_BUSY) {
            continue;
        }
        /* The words of a value are one put's, and moments never fall. */
        if (status == CEFRODIL_OK && (value[0] % KEYS != key || value[1] != ~value[0])) {
            return (void *)"a value is not what was put";
        }
        if (status > CEFRODIL_BUSY || reply.at < last) {
            return (void *)"an answer is out of order";
        }
        last = reply.at;
    }
    return NULL;
}

int main(void) {
    cefrodil_handle *const writer = &handles[READERS];
    cefrodil_shape shape;
    cefrodil_reply reply;
    pthread_t threads[READERS];
    const char *wrong = NULL;
    must(cefrodil_shape_for_items(KEYS / 2, 1, &shape), "shape");
    must(cefrodil_open(&shape, 1, WORDS, handles, READERS + 1), "open");
    must(cefrodil_hold(writer), "hold");
    for (int i = 0; i < READERS; i++) {
        if (pthread_create(&threads[i], NULL, look_up, &handles[i]) != 0) {
            return 1;
        }
    }
    for (uint64_t i = 0; i < PUTS; i++) {
        uint64_t value[WORDS] = {i, ~i};
        uint32_t status = cefrodil_put(writer, i % KEYS, value, WORDS, &reply);
        if (status != CEFRODIL_NO_PATH && status != CEFRODIL_ALL_RECENT) {
            must(status, "put");
        }
    }
    for (int i = 0; i < READERS; i++) {
        void *said = NULL;
        pthread_join(threads[i], &said);
        wrong = said != NULL ? (const char *)said : wrong;
        must(cefrodil_close(&handles[i]), "close");
    }
    must(cefrodil_close(writer), "close");
    puts(wrong != NULL ? wrong : "every value was whole");
    return wrong != NULL;
}
