/* Accounts in shards, between which threads move money, and a report that never sees money in flight. A move takes from one account and adds to
 * another, so the thread holds every turn for it; the report holds them, too, and lists all accounts. Reads as C and as C++. */
#include "cefrodil.h"
#include <pthread.h>
#include <sched.h>
#include <stdbool.h>
#include <stdio.h>
#include <stdlib.h>

enum { THREADS = 3, ACCOUNTS = 100, MOVES = 2000, REPORTS = 50, EACH = 1000 };

static void check(bool holds, const char *what) {
    if (!holds) {
        fprintf(stderr, "%s\n", what);
        exit(1);
    }
}

/* Takes the turn of every shard. Another thread that holds them lets them go soon. */
static void hold(cefrodil_handle *handle) {
    cefrodil_status status = cefrodil_hold(handle);
    while (status == CEFRODIL_HELD) {
        sched_yield();
        status = cefrodil_hold(handle);
    }
    check(status == CEFRODIL_OK, cefrodil_text(status));
}

static void add(cefrodil_handle *holder, uint64_t account, int64_t money) {
    cefrodil_reply reply;
    uint64_t balance;
    check(cefrodil_get(holder, account, &balance, 1, NULL) == CEFRODIL_OK, "an account is gone");
    balance += (uint64_t)money;
    check(cefrodil_put(holder, account, &balance, 1, &reply) == CEFRODIL_OK, "an account can't be written");
}

static void *moves(void *given) {
    cefrodil_handle *const handle = (cefrodil_handle *)given;
    for (uint64_t n = 0; n < MOVES; n++) {
        hold(handle);
        add(handle, n % ACCOUNTS, -1);
        add(handle, (7 * n + 1) % ACCOUNTS, 1);
        check(cefrodil_release(handle) == CEFRODIL_OK, "the turns are not given back");
    }
    return NULL;
}

/* All money, by a list of one moment. */
static uint64_t report(cefrodil_handle *handle) {
    uint64_t entries[2 * ACCOUNTS], count = 0, sum = 0;
    hold(handle);
    check(cefrodil_entries(handle, entries, 2 * ACCOUNTS, &count) == CEFRODIL_OK, "the accounts can't be listed");
    check(cefrodil_release(handle) == CEFRODIL_OK, "the turns are not given back");
    for (uint64_t i = 0; i < count; i++) {
        sum += entries[2 * i + 1];
    }
    return sum;
}

int main(void) {
    cefrodil_handle handles[THREADS + 1] = {CEFRODIL_EMPTY, CEFRODIL_EMPTY, CEFRODIL_EMPTY, CEFRODIL_EMPTY};
    cefrodil_handle *const own = &handles[THREADS];
    pthread_t threads[THREADS];
    cefrodil_shape shape;
    cefrodil_reply reply;
    const uint64_t first = EACH;
    check(cefrodil_shape_for_items(2 * ACCOUNTS, 4, &shape) == CEFRODIL_OK, "there is no such shape");
    check(cefrodil_open(&shape, 4, 1, handles, THREADS + 1) == CEFRODIL_OK, "no cache");
    for (uint64_t account = 0; account < ACCOUNTS; account++) {
        check(cefrodil_put(own, account, &first, 1, &reply) == CEFRODIL_OK, "an account can't be opened");
    }
    for (int i = 0; i < THREADS; i++) {
        check(pthread_create(&threads[i], NULL, moves, &handles[i]) == 0, "no thread");
    }
    for (int i = 0; i < REPORTS; i++) {
        check(report(own) == (uint64_t)ACCOUNTS * EACH, "money is in flight");
    }
    for (int i = 0; i < THREADS; i++) {
        check(pthread_join(threads[i], NULL) == 0, "a thread does not end");
    }
    printf("ok: %llu in all\n", (unsigned long long)report(own));
    for (int i = 0; i <= THREADS; i++) {
        cefrodil_close(&handles[i]);
    }
    return 0;
}
