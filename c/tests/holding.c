// A handle holds every turn: alone, beside another handle, and beside threads that try, look up, list and hold.
#include "cefrodil.h"
#include "must.h"
#include <pthread.h>
#include <sched.h>
#include <stdatomic.h>

enum { KEYS = 64, HOLDS = 2000, MOST_TRIES = 20000000, TRIERS = 2, LISTED = KEYS + 2, HANDLES = 4 + TRIERS };

static cefrodil_handle handles[HANDLES];

static void opens(uint32_t shards) {
    cefrodil_shape shape;
    MUST(cefrodil_shape_for_items(1000, shards, &shape) == CEFRODIL_OK);
    MUST(cefrodil_open(&shape, shards, 1, handles, HANDLES) == CEFRODIL_OK);
}

static void closes(void) {
    for (size_t i = 0; i < HANDLES; i++) {
        MUST(cefrodil_close(&handles[i]) == CEFRODIL_OK);
    }
}

// What another handle may do: look up. Each key of many is held by itself. The holder has put the keys with their tenfold.
static void others_look_up(cefrodil_handle *other) {
    const uint64_t keys[2] = {7, 8}, values[2] = {1, 2};
    cefrodil_put_answer answers[2];
    cefrodil_reply reply;
    uint64_t found = 5, number = 99;
    MUST(cefrodil_put_many(other, keys, 2, values, 2, answers, 2) == CEFRODIL_OK);
    MUST(answers[0].status == CEFRODIL_HELD && answers[1].status == CEFRODIL_HELD && answers[1].reply.at == 0);
    MUST(cefrodil_release(other) == CEFRODIL_HOLDS_NOT && cefrodil_entries(other, NULL, 0, &number) == CEFRODIL_HELD && number == 99);
    MUST(cefrodil_get(other, 7, &found, 1, &reply) == CEFRODIL_OK && found == 70 && cefrodil_get_or_turn(other, 8, &found, 1, &reply) == CEFRODIL_OK);
    MUST(found == 80 && cefrodil_get(other, 100, &found, 1, &reply) == CEFRODIL_ABSENT);
}

// What a holder's calls return, and those of another handle meanwhile.
static void holds(void) {
    cefrodil_handle *const one = &handles[0], *const other = &handles[1];
    cefrodil_reply reply;
    uint64_t value, number, entries[3 * KEYS];
    MUST(cefrodil_release(one) == CEFRODIL_HOLDS_NOT);
    MUST(cefrodil_moment(one, &number) == CEFRODIL_OK && number == 0 && cefrodil_release(one) == CEFRODIL_HOLDS_NOT);
    MUST(cefrodil_hold(one) == CEFRODIL_OK);
    MUST(cefrodil_hold(one) == CEFRODIL_HOLDS);
    for (uint64_t key = 0; key < KEYS; key++) {
        value = 10 * key;
        MUST(cefrodil_put(one, key, &value, 1, &reply) == CEFRODIL_OK && reply.put == CEFRODIL_PUT_STORED);
        MUST(cefrodil_put(other, key, &value, 1, &reply) == CEFRODIL_HELD);
    }
    others_look_up(other);
    MUST(cefrodil_get(one, 7, &value, 1, NULL) == CEFRODIL_OK && value == 70);
    MUST(cefrodil_get_or_turn(one, 7, &value, 1, &reply) == CEFRODIL_OK && value == 70);
    MUST(cefrodil_peek(one, 8, &value, 1, &reply) == CEFRODIL_OK && value == 80);
    MUST(cefrodil_len(one, &number) == CEFRODIL_OK && number == KEYS);
    MUST(cefrodil_moment(one, &number) == CEFRODIL_OK && number == KEYS);
    MUST(cefrodil_entries(one, entries, 2 * KEYS, &number) == CEFRODIL_OK && number == KEYS);
    MUST(cefrodil_stamped_entries(one, entries, 3 * KEYS - 1, &number) == CEFRODIL_BAD_COUNT && number == KEYS);
    MUST(cefrodil_stamped_entries(one, entries, 3 * KEYS, &number) == CEFRODIL_OK && number == KEYS);
    MUST(cefrodil_hold(one) == CEFRODIL_HOLDS);
    MUST(cefrodil_remove(one, 7, &reply) == CEFRODIL_OK);
    MUST(cefrodil_release(one) == CEFRODIL_OK);
    MUST(cefrodil_release(one) == CEFRODIL_HOLDS_NOT);
    MUST(cefrodil_moment(other, &number) == CEFRODIL_OK && number == KEYS + 1);
    // The turns are free again, also after a holder was closed.
    MUST(cefrodil_remove(other, 8, &reply) == CEFRODIL_OK);
    MUST(cefrodil_hold(&handles[2]) == CEFRODIL_OK);
    MUST(cefrodil_close(&handles[2]) == CEFRODIL_OK);
    MUST(cefrodil_hold(other) == CEFRODIL_OK && cefrodil_release(other) == CEFRODIL_OK);
    MUST(cefrodil_hold(&handles[2]) == CEFRODIL_CLOSED && cefrodil_release(&handles[2]) == CEFRODIL_CLOSED);
}

static atomic_bool done;
// Changes that have been made: by tries that won, and by the holder.
static atomic_ulong won, written;

// Puts keys by tries, and counts those that won.
static void *tries(void *handle) {
    cefrodil_reply reply;
    for (uint64_t n = 1; !atomic_load(&done); n++) {
        const uint64_t value = n;
        if (cefrodil_put(handle, n % KEYS, &value, 1, &reply) == CEFRODIL_OK) {
            atomic_fetch_add(&won, 1);
        }
    }
    return NULL;
}

// Looks up the key to which a holder gives rising values. Returns null if they fell.
static void *looks(void *handle) {
    uint64_t last = 0;
    bool rise = true;
    while (!atomic_load(&done)) {
        uint64_t value;
        if (cefrodil_get(handle, 1000, &value, 1, NULL) == CEFRODIL_OK) {
            rise = rise && value >= last;
            last = value;
        }
    }
    return rise ? handle : NULL;
}

// The value of this key in a list with stamps, or 0.
static uint64_t listed(const uint64_t *entries, uint64_t count, uint64_t key) {
    for (uint64_t i = 0; i < count; i++) {
        if (entries[3 * i] == key) {
            return entries[3 * i + 1];
        }
    }
    return 0;
}

// Whether all changes are counted that were made before.
static bool counts_all(cefrodil_handle *handle) {
    const uint64_t made = atomic_load(&won) + atomic_load(&written);
    uint64_t moment = 0;
    const cefrodil_status status = cefrodil_moment(handle, &moment);
    return status == CEFRODIL_HELD || (status == CEFRODIL_OK && moment >= made);
}

// Whether the keys of the holder have one value in a list of one moment.
static bool lists_all(cefrodil_handle *handle) {
    uint64_t entries[3 * LISTED], count = 0;
    const cefrodil_status status = cefrodil_stamped_entries(handle, entries, 3 * LISTED, &count);
    return status == CEFRODIL_HELD || (status == CEFRODIL_OK && listed(entries, count, 1000) == listed(entries, count, 1001));
}

// Lists and counts without holding. Returns null if an answer is wrong.
static void *lists(void *handle) {
    bool right = true;
    while (!atomic_load(&done)) {
        right = right && lists_all(handle) && counts_all(handle);
        sched_yield();
    }
    return right ? handle : NULL;
}

// Nobody changes anything between two calls of a holder.
static void writes_alone(cefrodil_handle *holder, uint64_t number) {
    uint64_t entries[2 * LISTED], first = 0, last = 0, count = 0;
    cefrodil_reply reply;
    MUST(cefrodil_moment(holder, &first) == CEFRODIL_OK);
    MUST(cefrodil_put(holder, 1000, &number, 1, &reply) == CEFRODIL_OK && cefrodil_put(holder, 1001, &number, 1, &reply) == CEFRODIL_OK);
    MUST(cefrodil_entries(holder, entries, 2 * LISTED, &count) == CEFRODIL_OK);
    MUST(cefrodil_len(holder, &last) == CEFRODIL_OK && last == count);
    MUST(cefrodil_moment(holder, &last) == CEFRODIL_OK && last == first + 2);
    atomic_fetch_add(&written, 2);
    MUST(cefrodil_release(holder) == CEFRODIL_OK);
}

// Holds so many times beside the others.
static void beside_threads(void) {
    pthread_t threads[TRIERS + 2];
    uint64_t held = 0, last = 0;
    void *(*const work[TRIERS + 2])(void *) = {tries, tries, looks, lists};
    atomic_store(&done, false);
    atomic_store(&won, 0);
    atomic_store(&written, 0);
    for (size_t i = 0; i < TRIERS + 2; i++) {
        MUST(pthread_create(&threads[i], NULL, work[i], &handles[1 + i]) == 0);
    }
    for (long n = 0; held < HOLDS && n < MOST_TRIES; n++) {
        if (cefrodil_hold(&handles[0]) != CEFRODIL_OK) {
            // Another thread may have stopped within a turn, and needs this processor.
            sched_yield();
            continue;
        }
        writes_alone(&handles[0], ++held);
    }
    MUST(held == HOLDS);
    // At the end nobody tries, so each try wins: then all changes are those that won, and the holder's.
    atomic_store(&done, true);
    for (size_t i = 0; i < TRIERS + 2; i++) {
        void *right = NULL;
        MUST(pthread_join(threads[i], &right) == 0 && (i < TRIERS || right != NULL));
    }
    MUST(cefrodil_moment(&handles[1], &last) == CEFRODIL_OK && last == 2 * held + atomic_load(&won));
    MUST(cefrodil_hold(&handles[0]) == CEFRODIL_OK);
    MUST(cefrodil_moment(&handles[0], &last) == CEFRODIL_OK && last == 2 * held + atomic_load(&won));
}

int main(void) {
    for (uint32_t shards = 1; shards <= 4; shards *= 4) {
        opens(shards);
        holds();
        for (size_t i = 0; i < HANDLES; i++) {
            MUST(cefrodil_close(&handles[i]) == (i == 2 ? CEFRODIL_CLOSED : CEFRODIL_OK));
        }
        opens(shards);
        beside_threads();
        closes();
    }
    return outcome("holding");
}
