/* A process forks while its threads open, write and close. A child closes what it has from its parent, which frees nothing, and ends by exit. What
 * it opens itself is its own. No child hangs. */
#include "cefrodil.h"
#include "must.h"
#include <pthread.h>
#include <stdatomic.h>
#include <stdlib.h>
#include <sys/wait.h>
#include <unistd.h>

enum { CHILDREN = 200, HANDLES = 3 };

/* Of two caches: the first handle of one holds its turns. */
static cefrodil_handle held[2] = {CEFRODIL_EMPTY, CEFRODIL_EMPTY}, handles[HANDLES] = {CEFRODIL_EMPTY, CEFRODIL_EMPTY, CEFRODIL_EMPTY};
static cefrodil_handle *const holder = &held[0], *const reader = &held[1];
static atomic_bool is_over;

/* Blocks of such shards are cut from a region, behind a lock. */
static bool open_and_close(void) {
    cefrodil_handle own[2] = {CEFRODIL_EMPTY, CEFRODIL_EMPTY};
    cefrodil_shape shape;
    cefrodil_reply reply;
    uint64_t value = 1;
    return cefrodil_shape_for_items(40000, 4, &shape) == CEFRODIL_OK && cefrodil_open(&shape, 4, 1, own, 2) == CEFRODIL_OK &&
           cefrodil_put(&own[0], 1, &value, 1, &reply) == CEFRODIL_OK && cefrodil_get(&own[1], 1, &value, 1, &reply) == CEFRODIL_OK &&
           cefrodil_close(&own[0]) == CEFRODIL_OK && cefrodil_close(&own[1]) == CEFRODIL_OK;
}

static void *churn(void *arg) {
    while (!is_over) {
        MUST(open_and_close());
    }
    return arg;
}

static void *write_on(void *arg) {
    for (uint64_t n = 0; !is_over; n++) {
        cefrodil_reply reply;
        MUST(cefrodil_put(&handles[0], n % 1000, &n, 1, &reply) == CEFRODIL_OK);
        MUST(cefrodil_put(holder, n % 1000, &n, 1, &reply) == CEFRODIL_OK);
    }
    return arg;
}

static bool is_dropped(cefrodil_handle *handle) {
    return cefrodil_close(handle) == CEFRODIL_CLOSED && !handle->live_ && handle->at_ == NULL && cefrodil_close(handle) == CEFRODIL_CLOSED;
}

static void drop_at_exit(void) {
    if (!is_dropped(holder)) {
        _exit(3);
    }
}

/* The holder is closed by exit, as the object of a C++ program would be. */
static void be_child(void) {
    alarm(20);
    bool is_right = is_dropped(reader) && open_and_close();
    for (size_t i = 0; i < HANDLES; i++) {
        is_right = is_right && is_dropped(&handles[i]);
    }
    atexit(drop_at_exit);
    exit(is_right ? 0 : 2);
}

static int children_end_well(void) {
    int ended = 0;
    for (int i = 0; i < CHILDREN; i++) {
        const pid_t child = fork();
        int status = -1;
        if (child == 0) {
            be_child();
        }
        MUST(waitpid(child, &status, 0) == child);
        ended += WIFEXITED(status) && WEXITSTATUS(status) == 0;
    }
    return ended;
}

int main(void) {
    cefrodil_shape shape;
    pthread_t threads[2];
    uint64_t value;
    MUST(cefrodil_shape_for_items(2000, 1, &shape) == CEFRODIL_OK && cefrodil_open(&shape, 1, 1, held, 2) == CEFRODIL_OK);
    MUST(cefrodil_open(&shape, 2, 1, handles, HANDLES) == CEFRODIL_OK && cefrodil_hold(holder) == CEFRODIL_OK);
    MUST(pthread_create(&threads[0], NULL, churn, NULL) == 0 && pthread_create(&threads[1], NULL, write_on, NULL) == 0);
    MUST(children_end_well() == CHILDREN);
    is_over = true;
    MUST(pthread_join(threads[0], NULL) == 0 && pthread_join(threads[1], NULL) == 0);
    MUST(cefrodil_get(reader, 1, &value, 1, NULL) == CEFRODIL_OK && cefrodil_get(&handles[1], 1, &value, 1, NULL) == CEFRODIL_OK);
    MUST(cefrodil_close(holder) == CEFRODIL_OK && cefrodil_close(reader) == CEFRODIL_OK);
    for (size_t i = 0; i < HANDLES; i++) {
        MUST(cefrodil_close(&handles[i]) == CEFRODIL_OK);
    }
    return outcome("forks");
}
