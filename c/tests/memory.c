/* Each allocation of an opening is refused in turn: then no handle is open, and nothing leaks. So is each of a list of entries, and each for
 * more handles. Calls that take no memory, as a holder's, work without it. A list allocates in its turn, so a batch of another handle is held
 * meanwhile: by a list with stamps in all shards. Linked with --wrap. */
#include "cefrodil.h"
#include <stdbool.h>
#include <stdio.h>

void *__real_malloc(size_t size);
void *__real_realloc(void *block, size_t size);
void __real_free(void *block);

static long left = -1, kept;
static void (*in_turn)(void); /* what the next allocation calls first */

static int refused(void) {
    if (left == 0) {
        return 1;
    }
    left -= left > 0;
    return 0;
}

void *__wrap_malloc(size_t size) {
    void (*call)(void) = in_turn;
    if (call != NULL) {
        in_turn = NULL;
        call();
    }
    if (refused()) {
        return NULL;
    }
    kept++;
    return __real_malloc(size);
}

void *__wrap_realloc(void *block, size_t size) {
    if (refused()) {
        return NULL;
    }
    kept += block == NULL;
    return __real_realloc(block, size);
}

void __wrap_free(void *block) {
    kept -= block != NULL;
    __real_free(block);
}

static cefrodil_handle handles[4];

/* How a cache is opened: with so many shards, and with entries or not. */
struct how {
    uint32_t shards;
    bool with_entries;
};

static const struct how plain = {1, false}, loaded = {1, true}, in_shards = {4, false}, loaded_in_shards = {4, true};

/* Three entries of 1 to 8 words, and their statuses. */
static const uint64_t entries[27];
static cefrodil_status statuses[3];

static uint32_t open_one(const cefrodil_shape *shape, size_t words, struct how how) {
    statuses[0] = statuses[1] = statuses[2] = 99;
    return how.with_entries ? cefrodil_open_with(shape, how.shards, words, entries, 3 * (1 + words), statuses, 3, handles, 4)
                            : cefrodil_open(shape, how.shards, words, handles, 4);
}

static int is_told(uint32_t status) { return statuses[0] == status && statuses[1] == status && statuses[2] == status; }

static int open_handles(void) {
    int open = 0;
    for (int i = 0; i < 4; i++) {
        open += handles[i].live_;
    }
    return open;
}

static void close_all(void) {
    for (int i = 0; i < 4; i++) {
        cefrodil_close(&handles[i]);
    }
}

/* How many allocations an opening takes; -1 if a refusal leaves something behind. */
static long allocations(const cefrodil_shape *shape, size_t words, struct how how) {
    for (long allowed = 0; allowed < 500; allowed++) {
        left = allowed, kept = 0;
        uint32_t status = open_one(shape, words, how);
        left = -1;
        if (status == CEFRODIL_OK) {
            close_all();
            return kept == 0 && is_told(how.with_entries ? CEFRODIL_OK : 99) ? allowed : -1;
        }
        if (status != CEFRODIL_NO_MEMORY || kept != 0 || open_handles() != 0 || !is_told(99)) {
            return -1;
        }
    }
    return -1;
}

/* Each allocation of a list is refused in turn: then nothing is written. A list keeps nothing. The three entries are one key. */
static int lists(cefrodil_handle *lister, size_t words, bool stamped) {
    long allowed = 0, before = kept;
    for (; allowed < 20; allowed++) {
        uint64_t list[10] = {99}, count = 98;
        left = allowed;
        uint32_t status = stamped ? cefrodil_stamped_entries(lister, list, 2 + words, &count) : cefrodil_entries(lister, list, 1 + words, &count);
        left = -1;
        if (kept != before) {
            return 0;
        }
        if (status == CEFRODIL_OK) {
            return count == 1 && list[0] == 0 && allowed > 0;
        }
        if (status != CEFRODIL_NO_MEMORY || count != 98 || list[0] != 99) {
            return 0;
        }
    }
    return 0;
}

/* A list without room makes none, so it takes no memory. */
static int counts(cefrodil_handle *lister) {
    uint64_t count = 98, stamped_count = 98;
    left = 0;
    uint32_t status = cefrodil_entries(lister, NULL, 0, &count), stamped = cefrodil_stamped_entries(lister, NULL, 0, &stamped_count);
    left = -1;
    return status == CEFRODIL_BAD_COUNT && stamped == CEFRODIL_BAD_COUNT && count == 1 && stamped_count == 1;
}

static int lists_and_counts(cefrodil_handle *lister, size_t words) {
    return lists(lister, words, false) && lists(lister, words, true) && counts(lister);
}

/* By a handle that tries, and by one that holds. */
static int all_list(const cefrodil_shape *shape, size_t words, struct how how) {
    int listed = open_one(shape, words, how) == CEFRODIL_OK && lists_and_counts(&handles[3], words) && cefrodil_hold(&handles[0]) == CEFRODIL_OK &&
                 lists_and_counts(&handles[0], words);
    close_all();
    return listed;
}

/* To hold the turns, to use them and to give them back takes no memory. */
static int holds(const cefrodil_shape *shape, size_t words, struct how how) {
    cefrodil_reply reply;
    uint64_t found[8], moment = 0, len = 0;
    int held = open_one(shape, words, how) == CEFRODIL_OK;
    const long before = kept;
    left = 0;
    held = held && cefrodil_moment(&handles[0], &moment) == CEFRODIL_OK && moment == 3 && cefrodil_hold(&handles[0]) == CEFRODIL_OK &&
           cefrodil_put(&handles[0], 1, entries, words, &reply) == CEFRODIL_OK && cefrodil_get(&handles[0], 1, found, words, &reply) == CEFRODIL_OK &&
           cefrodil_hold(&handles[1]) == CEFRODIL_HELD && cefrodil_moment(&handles[0], &moment) == CEFRODIL_OK && moment == 4 &&
           cefrodil_len(&handles[0], &len) == CEFRODIL_OK && len == 2 && cefrodil_release(&handles[0]) == CEFRODIL_OK &&
           cefrodil_put(&handles[1], 2, entries, words, &reply) == CEFRODIL_OK && cefrodil_get_or_turn(&handles[2], 2, found, words, &reply) == CEFRODIL_OK &&
           cefrodil_evict(&handles[1], 2, found, words, &reply) == CEFRODIL_OK;
    left = -1;
    held = held && kept == before;
    close_all();
    return held && kept == 0;
}

enum { SPARE = 64 };
static cefrodil_handle more[SPARE];

/* Whether the handles that were asked for work, or none of them is open. */
static int all_work(uint32_t status, size_t words) {
    cefrodil_reply reply;
    int work = status == CEFRODIL_OK || status == CEFRODIL_NO_MEMORY;
    for (uint64_t i = 0; i < SPARE; i++) {
        work = work && cefrodil_put(&more[i], i, entries, words, &reply) == (status == CEFRODIL_OK ? CEFRODIL_OK : CEFRODIL_CLOSED);
        cefrodil_close(&more[i]);
    }
    return work;
}

/* Each allocation for more handles is refused in turn: then none of them is open, nothing leaks, and the cache goes on. Spare handles may be used
 * up, so each time a new cache gives them. */
static int gives_more(const cefrodil_shape *shape, size_t words, struct how how) {
    cefrodil_reply reply;
    uint32_t status = CEFRODIL_NO_MEMORY;
    long allowed = 0;
    for (; allowed < 1000 && status != CEFRODIL_OK; allowed++) {
        int given = open_one(shape, words, how) == CEFRODIL_OK;
        left = allowed;
        status = cefrodil_more(&handles[0], more, SPARE);
        left = -1;
        given = given && all_work(status, words) && cefrodil_put(&handles[0], 0, entries, words, &reply) == CEFRODIL_OK;
        close_all();
        if (!given || kept != 0) {
            return 0;
        }
    }
    return status == CEFRODIL_OK && allowed > 1;
}

static cefrodil_handle others[SPARE + 1];
static uint32_t one_more, too_many_more;

static void ask_meanwhile(void) {
    one_more = cefrodil_more(&handles[1], others, 1);
    too_many_more = cefrodil_more(&handles[1], others, SPARE + 1);
}

/* While a call for more handles takes its memory, the spare ones are away: a call by another handle is held, whether there are so many or not. */
static int gives_one_call_at_once(const cefrodil_shape *shape, size_t words) {
    int given = open_one(shape, words, in_shards) == CEFRODIL_OK;
    in_turn = ask_meanwhile;
    given = given && cefrodil_more(&handles[0], more, 1) == CEFRODIL_OK && in_turn == NULL;
    given = given && one_more == CEFRODIL_HELD && too_many_more == CEFRODIL_HELD && cefrodil_more(&handles[1], others, 1) == CEFRODIL_OK;
    cefrodil_close(&more[0]);
    cefrodil_close(&others[0]);
    close_all();
    return given && kept == 0;
}

/* So many keys are put at once. */
enum { BATCH = 40 };
static uint64_t batch[BATCH], batch_values[BATCH * 8];
static cefrodil_put_answer batch_answers[BATCH];
static size_t batch_words;
static uint32_t batch_status;

static void put_batch(void) {
    batch_status = cefrodil_put_many(&handles[1], batch, BATCH, batch_values, BATCH * batch_words, batch_answers, BATCH);
}

/* Whether each answer has this status. The first change of the batch is `at`; 0: there is none. */
static int is_answered(uint32_t status, uint64_t at) {
    int answered = batch_status == CEFRODIL_OK;
    for (uint64_t i = 0; i < BATCH; i++) {
        const cefrodil_put_answer *answer = &batch_answers[i];
        answered = answered && answer->status == status && answer->reply.at == (at != 0 ? at + i : 0) && answer->unused == 0 &&
                   answer->reply.put == (at != 0 ? CEFRODIL_PUT_STORED : CEFRODIL_PUT_NOTHING) && answer->reply.since == 0;
    }
    return answered;
}

/* While a list has the turn of the one shard, each key of a batch is held, and nothing is changed. Behind it all are put. */
static int batches(const cefrodil_shape *shape, size_t words) {
    uint64_t list[9], count = 0, found[8];
    cefrodil_reply reply;
    batch_words = words;
    for (uint64_t i = 0; i < BATCH; i++) {
        batch[i] = 100 + i;
        batch_values[i * words] = batch_values[i * words + words - 1] = i;
    }
    int put = open_one(shape, words, plain) == CEFRODIL_OK && cefrodil_put(&handles[0], 0, entries, words, &reply) == CEFRODIL_OK;
    in_turn = put_batch;
    put = put && cefrodil_entries(&handles[0], list, 1 + words, &count) == CEFRODIL_OK && count == 1 && in_turn == NULL;
    put = put && is_answered(CEFRODIL_HELD, 0) && cefrodil_len(&handles[1], &count) == CEFRODIL_OK && count == 1;
    put_batch();
    put = put && is_answered(CEFRODIL_OK, 2) && cefrodil_len(&handles[0], &count) == CEFRODIL_OK && count == 1 + BATCH;
    for (uint64_t i = 0; i < BATCH; i++) {
        put = put && cefrodil_get(&handles[0], 100 + i, found, words, &reply) == CEFRODIL_OK && found[words - 1] == i && reply.since == 2 + i;
    }
    close_all();
    return put;
}

static bool all_held;

/* Notes whether the whole batch is held, at each allocation from here on. */
static void note_batch(void) {
    put_batch();
    all_held = all_held || is_answered(CEFRODIL_HELD, 0);
    in_turn = note_batch;
}

/* While a list with stamps is made, it has the turns of all shards at once. Behind it all are free. */
static int stamps_at_once(const cefrodil_shape *shape, size_t words) {
    static uint64_t list[(1 + BATCH) * 10];
    uint64_t count = 0;
    batch_words = words;
    int stamped = open_one(shape, words, loaded_in_shards) == CEFRODIL_OK;
    all_held = false, in_turn = note_batch;
    stamped = stamped && cefrodil_stamped_entries(&handles[0], list, (1 + BATCH) * (2 + words), &count) == CEFRODIL_OK && count >= 1 && all_held;
    in_turn = NULL;
    put_batch();
    for (size_t i = 0; i < BATCH; i++) {
        stamped = stamped && batch_answers[i].status == CEFRODIL_OK;
    }
    close_all();
    return stamped;
}

/* Each opening takes memory, shards more than one, and one more with entries. */
static int opens(const cefrodil_shape *shape, size_t words) {
    const long one = allocations(shape, words, plain), four = allocations(shape, words, in_shards);
    const long with = allocations(shape, words, loaded), both = allocations(shape, words, loaded_in_shards);
    if (one >= 5 && four >= one + 3 && with == one + 1 && both == four + 1) {
        return 1;
    }
    printf("memory: allocations for %zu words: %ld, %ld; with entries %ld, %ld\n", words, one, four, with, both);
    return 0;
}

/* What fails with values of so many words, or null. */
static const char *failure(const cefrodil_shape *shape, size_t words) {
    if (!opens(shape, words)) {
        return "an opening";
    }
    if (!all_list(shape, words, loaded) || !all_list(shape, words, loaded_in_shards)) {
        return "a list";
    }
    if (!holds(shape, words, loaded) || !holds(shape, words, loaded_in_shards)) {
        return "a holder";
    }
    if (!gives_more(shape, words, loaded) || !gives_more(shape, words, loaded_in_shards) || !gives_one_call_at_once(shape, words)) {
        return "more handles";
    }
    if (!batches(shape, words)) {
        return "a batch";
    }
    return stamps_at_once(shape, words) ? NULL : "a list with stamps";
}

int main(void) {
    cefrodil_shape shape;
    if (cefrodil_shape_for_items(100, 1, &shape) != CEFRODIL_OK) {
        return 1;
    }
    for (size_t words = 1; words <= 8; words++) {
        shape.policy = words % 2 == 0 ? CEFRODIL_POLICY_SCAN_RESISTANT : CEFRODIL_POLICY_CLOCK;
        const char *const failed = failure(&shape, words);
        if (failed != NULL) {
            printf("memory: %s of %zu words\n", failed, words);
            return 1;
        }
    }
    puts("memory: ok");
    return 0;
}
