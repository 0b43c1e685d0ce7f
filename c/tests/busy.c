/* A lookup by cefrodil_get_or_turn that is busy tries for the turn: so beside it a put is held now and then. Nobody else takes turns here. */
#include "cefrodil.h"
#include "must.h"
#include <pthread.h>
#include <stdatomic.h>
#include <stdbool.h>
#include <time.h>

enum { SECONDS = 60 };

static cefrodil_handle handles[2];
static atomic_bool has_ended;

static bool is_late(void) {
    static time_t began;
    began = began != 0 ? began : time(NULL);
    return time(NULL) - began > SECONDS;
}

/* Puts one key until a try for the turn is held. */
static void *put(void *held) {
    cefrodil_reply reply;
    uint64_t value[8] = {0};
    while (!*(bool *)held && !is_late()) {
        for (int n = 0; n < 1000 && !*(bool *)held; n++) {
            const uint32_t status = cefrodil_put_8(&handles[0], 1, value, &reply);
            MUST(status == CEFRODIL_OK || status == CEFRODIL_HELD);
            *(bool *)held = status == CEFRODIL_HELD;
        }
    }
    atomic_store(&has_ended, true);
    return NULL;
}

int main(void) {
    cefrodil_shape shape;
    cefrodil_reply reply;
    uint64_t value[8];
    bool held = false;
    pthread_t writer;
    MUST(cefrodil_shape_for_items(100, 1, &shape) == CEFRODIL_OK);
    shape.tries = 1, shape.stripes = 1;
    MUST(cefrodil_open(&shape, 1, 8, handles, 2) == CEFRODIL_OK);
    MUST(pthread_create(&writer, NULL, put, &held) == 0);
    while (!atomic_load(&has_ended)) {
        const uint32_t status = cefrodil_get_or_turn_8(&handles[1], 1, value, &reply);
        MUST(status == CEFRODIL_OK || status == CEFRODIL_ABSENT || status == CEFRODIL_BUSY);
    }
    MUST(pthread_join(writer, NULL) == 0 && held);
    MUST(cefrodil_close(&handles[0]) == CEFRODIL_OK && cefrodil_close(&handles[1]) == CEFRODIL_OK);
    return outcome("busy");
}
