/* A cache gives out spare handles, also to threads that ask at once. They are like those of the opening. */
#include "cefrodil.h"
#include "must.h"
#include <pthread.h>
#include <sched.h>

enum { MOST = 1024, SPARE = 64, THREADS = 4, MOST_TRIES = 20000000 };

static cefrodil_handle handles[2], more[2], none, crowd[MOST + 1];
static cefrodil_shape shape;
static cefrodil_reply reply;

static const uint64_t entries[18] = {1, 10, 11, 12, 13, 14, 15, 16, 17};

static void opened_with_one_entry(uint32_t shards, size_t words) {
    cefrodil_status status = CEFRODIL_BUSY;
    MUST(cefrodil_open_with(&shape, shards, words, entries, 1 + words, &status, 1, handles, 2) == CEFRODIL_OK && status == CEFRODIL_OK);
}

static void close_all(cefrodil_handle *all, size_t count) {
    for (size_t i = 0; i < count; i++) {
        MUST(cefrodil_close(&all[i]) == CEFRODIL_OK);
    }
}

static void statuses(void) {
    uint64_t value[2] = {7, 8}, found[2] = {0, 0};
    opened_with_one_entry(1, 2);
    MUST(cefrodil_more(&none, &handles[1], 1) == CEFRODIL_IN_USE);
    MUST(cefrodil_more(&handles[0], more, 0) == CEFRODIL_BAD_HANDLES && cefrodil_more(&handles[0], crowd, SPARE + 1) == CEFRODIL_BAD_HANDLES);
    MUST(cefrodil_more(&handles[0], crowd, MOST) == CEFRODIL_BAD_HANDLES && cefrodil_more(&handles[0], crowd, MOST + 1) == CEFRODIL_BAD_HANDLES);
    crowd[1] = cefrodil_move(&handles[1]);
    MUST(cefrodil_more(&handles[0], crowd, 2) == CEFRODIL_IN_USE && !crowd[0].live_ && crowd[1].live_);
    handles[1] = cefrodil_move(&crowd[1]);
    MUST(!more[0].live_ && cefrodil_get(&handles[1], 1, found, 2, NULL) == CEFRODIL_OK);
    MUST(cefrodil_put(&handles[0], 2, value, 2, &reply) == CEFRODIL_OK && reply.at == 2);
    MUST(cefrodil_more(&handles[0], more, 2) == CEFRODIL_OK && handles[0].live_ && more[0].live_ && more[1].live_);
    MUST(cefrodil_get(&more[0], 1, found, 2, &reply) == CEFRODIL_OK && found[0] == 10 && found[1] == 11 && reply.at == 2);
    MUST(cefrodil_put(&more[1], 3, value, 2, &reply) == CEFRODIL_OK && reply.at == 3);
    MUST(cefrodil_len(&more[0], &found[0]) == CEFRODIL_OK && found[0] == 3);
    MUST(cefrodil_get(&handles[1], 3, found, 2, &reply) == CEFRODIL_OK && found[1] == 8 && reply.at == 3);
    close_all(more, 2);
    close_all(handles, 2);
}

/* A handle that holds the turns may ask, and so may others meanwhile. A new handle does not hold them, but may. */
static void beside_a_holder(void) {
    uint64_t value = 7;
    MUST(cefrodil_open(&shape, 4, 1, handles, 2) == CEFRODIL_OK && cefrodil_hold(&handles[1]) == CEFRODIL_OK);
    MUST(cefrodil_more(&handles[1], more, 1) == CEFRODIL_OK && cefrodil_more(&handles[0], &more[1], 1) == CEFRODIL_OK);
    for (int i = 0; i < 2; i++) {
        MUST(cefrodil_put(&more[i], 1, &value, 1, &reply) == CEFRODIL_HELD && cefrodil_release(&more[i]) == CEFRODIL_HOLDS_NOT);
    }
    MUST(cefrodil_put(&handles[1], 1, &value, 1, &reply) == CEFRODIL_OK && cefrodil_get(&more[0], 1, &value, 1, &reply) == CEFRODIL_OK);
    MUST(cefrodil_hold(&more[0]) == CEFRODIL_HELD && cefrodil_release(&handles[1]) == CEFRODIL_OK);
    MUST(cefrodil_hold(&more[0]) == CEFRODIL_OK && cefrodil_put(&handles[0], 1, &value, 1, &reply) == CEFRODIL_HELD);
    MUST(cefrodil_put(&more[0], 1, &value, 1, &reply) == CEFRODIL_OK);
    close_all(more, 2);
    MUST(cefrodil_get(&handles[1], 1, &value, 1, &reply) == CEFRODIL_OK && cefrodil_put(&handles[0], 1, &value, 1, &reply) == CEFRODIL_OK);
    close_all(handles, 2);
}

/* New handles ask for newer ones, and go on when the older ones are closed. */
static void again(uint32_t shards, size_t words) {
    uint64_t found[8];
    cefrodil_handle newest;
    opened_with_one_entry(shards, words);
    newest = cefrodil_move(&handles[0]);
    for (uint64_t round = 0; round < 5; round++) {
        MUST(cefrodil_more(&newest, more, 2) == CEFRODIL_OK);
        MUST(cefrodil_put(&newest, 100 + round, entries + 1, words, &reply) == CEFRODIL_OK && cefrodil_close(&newest) == CEFRODIL_OK);
        MUST(cefrodil_put(&more[0], 200 + round, entries + 1, words, &reply) == CEFRODIL_OK && reply.put == CEFRODIL_PUT_STORED);
        MUST(cefrodil_get(&more[1], 100 + round, found, words, &reply) == CEFRODIL_OK && found[words - 1] == 9 + words);
        MUST(cefrodil_get(&more[1], 200 + round, found, words, &reply) == CEFRODIL_OK && found[0] == 10);
        MUST(cefrodil_get(&handles[1], 200 + round, found, words, &reply) == CEFRODIL_OK && found[words - 1] == 9 + words);
        MUST(cefrodil_get(&more[0], 1, found, words, &reply) == CEFRODIL_OK && reply.since == 1);
        newest = cefrodil_move(&more[0]);
        close_all(&more[1], 1);
    }
    MUST(cefrodil_len(&newest, &found[0]) == CEFRODIL_OK && found[0] == 11);
    close_all(&newest, 1);
    close_all(&handles[1], 1);
}

/* So many handles are open beside `spare` ones, which can be given out once. */
static void has_spare(size_t open, size_t spare) {
    MUST(cefrodil_open(&shape, 1, 1, crowd, open) == CEFRODIL_OK);
    MUST(cefrodil_more(&crowd[0], more, 0) == CEFRODIL_BAD_HANDLES);
    for (size_t given = 0; given < spare; given++) {
        MUST(cefrodil_more(&crowd[given % open], more, 1) == CEFRODIL_OK);
        close_all(more, 1);
    }
    MUST(cefrodil_more(&crowd[0], more, 1) == CEFRODIL_BAD_HANDLES && !more[0].live_);
    MUST(cefrodil_put(&crowd[open - 1], 1, entries, 1, &reply) == CEFRODIL_OK);
    close_all(crowd, open);
}

/* Groups of handles: none is given out if they are too many. */
static void in_groups(void) {
    MUST(cefrodil_open(&shape, 1, 1, handles, 2) == CEFRODIL_OK && cefrodil_more(&handles[0], crowd, 22) == CEFRODIL_OK);
    close_all(crowd, 22);
    MUST(cefrodil_more(&handles[0], crowd, 43) == CEFRODIL_BAD_HANDLES && cefrodil_more(&handles[1], crowd, 42) == CEFRODIL_OK);
    close_all(crowd, 42);
    MUST(cefrodil_more(&handles[0], crowd, 1) == CEFRODIL_BAD_HANDLES);
    close_all(handles, 2);
}

/* A thread with the handle by which it asks, and the spare handles that it got, at most all. Its last call needs a place, too. */
struct asker {
    pthread_t thread;
    cefrodil_handle own, got[SPARE + 1];
    size_t count;
};

/* Takes spare handles one by one until there are none, and writes by each. */
static void *ask(void *argument) {
    struct asker *asker = (struct asker *)argument;
    cefrodil_status status = CEFRODIL_OK;
    cefrodil_reply written;
    for (long n = 0; n < MOST_TRIES && (status == CEFRODIL_OK || status == CEFRODIL_HELD); n++) {
        status = cefrodil_more(&asker->own, &asker->got[asker->count], 1);
        if (status == CEFRODIL_OK) {
            uint64_t value = asker->count;
            MUST(cefrodil_put_within(&asker->got[asker->count], UINT32_MAX, value, &value, 1, &written) == CEFRODIL_OK);
            asker->count++;
        }
        sched_yield();
    }
    MUST(status == CEFRODIL_BAD_HANDLES);
    return NULL;
}

/* Each spare handle is given out once, whoever asks. */
static void by_threads(void) {
    static struct asker askers[THREADS];
    cefrodil_handle own[THREADS] = {CEFRODIL_EMPTY, CEFRODIL_EMPTY, CEFRODIL_EMPTY, CEFRODIL_EMPTY};
    size_t given = 0;
    MUST(cefrodil_open(&shape, 4, 1, own, THREADS) == CEFRODIL_OK);
    for (int i = 0; i < THREADS; i++) {
        askers[i].own = cefrodil_move(&own[i]);
        MUST(pthread_create(&askers[i].thread, NULL, ask, &askers[i]) == 0);
    }
    for (int i = 0; i < THREADS; i++) {
        MUST(pthread_join(askers[i].thread, NULL) == 0);
        given += askers[i].count;
    }
    MUST(given == SPARE);
    for (int i = 0; i < THREADS; i++) {
        close_all(askers[i].got, askers[i].count);
        close_all(&askers[i].own, 1);
    }
}

int main(void) {
    MUST(cefrodil_shape_for_items(100, 1, &shape) == CEFRODIL_OK);
    statuses();
    beside_a_holder();
    for (size_t words = 1; words <= 8; words++) {
        again(1, words);
        again(4, words);
    }
    has_spare(1, SPARE);
    has_spare(MOST - SPARE, SPARE);
    has_spare(MOST - 24, 24);
    has_spare(MOST - 1, 1);
    has_spare(MOST, 0);
    in_groups();
    by_threads();
    return outcome("more");
}
