/*
 * Cefrodil: a fixed-size in-memory cache from 64-bit keys to values of 1 to 8 64-bit words. It is made of shards, and the hash of a
 * key says which one has it. All handles of a cache are alike. Each looks up without a lock. A shard has a lock for its writes: who has
 * it has the *turn*. Each write tries once for the turn, and never waits. A handle that holds all turns writes without trying.
 *
 * The library behind these calls is proved: each completed lookup answers what the map of the key's shard held at one moment between
 * the lookup's first and last step. docs/PROMISES.md of its repository says exactly what is proved. It runs on Linux on x86-64-v2 and
 * aarch64. On an older x86-64 each opening, and each choice of a shape, returns CEFRODIL_PROCESSOR and does nothing.
 *
 * What you promise at every call, because no proof can check it:
 *
 *   1. A handle is memory of yours. You zeroed it once (CEFRODIL_EMPTY), and since then only this library wrote it. To
 *      move a handle, use cefrodil_move, or copy it and zero the old place. Never use a copy beside the original.
 *   2. One call at a time uses a handle. It passes from one thread to another by a lock, or by a thread's start or join.
 *      Or one thread stores an atomic with release order, and the other loads it with acquire order. Each of these puts
 *      the earlier calls before the later ones. Calls with different handles of one cache need no synchronization.
 *   3. Pointers are to memory of yours, aligned for their types and valid for the whole call. None of it overlaps. They
 *      are never null, except a handle of cefrodil_close, a reply of cefrodil_get, and an array of cefrodil_open_with,
 *      cefrodil_get_many, cefrodil_put_many, cefrodil_entries or cefrodil_stamped_entries whose count is 0.
 *      `value` has `words` words; an array has as many elements as its count says.
 *   4. No call comes from a signal handler. Every call returns: no longjmp, exception or asynchronous cancellation leaves it.
 *   5. malloc, realloc and free belong to one allocator, whose blocks are aligned to 16 bytes.
 *   6. The program is linked with the archive that belongs to this header. The names below mean its functions only.
 *
 * What you need not promise: that a handle is open, that it holds the turns or doesn't, that a value has the right width, that counts
 * match. A call that finds otherwise returns a status and changes nothing but the reply.
 *
 * In a child of fork, the handles of the parent are not open: calls return CEFRODIL_CLOSED, and closing one frees nothing. So the child may end by
 * exit, which runs the destructors of C++ objects. It may open caches of its own. (A child of a bare system call takes itself for its parent.)
 */
#ifndef CEFRODIL_H
#define CEFRODIL_H

#if !(defined(__x86_64__) || defined(__AARCH64EL__)) || !defined(__linux__) || defined(__ILP32__)
#error "Cefrodil runs on 64-bit Linux on x86-64 and aarch64 alone"
#endif

#include <stdbool.h>
#include <stddef.h>
#include <stdint.h>

/* The version of this header. cefrodil_version() is that of the archive, as CEFRODIL_VERSION writes it. */
#define CEFRODIL_VERSION_MAJOR 0
#define CEFRODIL_VERSION_MINOR 3
#define CEFRODIL_VERSION_PATCH 0
#define CEFRODIL_VERSION (10000 * CEFRODIL_VERSION_MAJOR + 100 * CEFRODIL_VERSION_MINOR + CEFRODIL_VERSION_PATCH)

/* A call whose status must be looked at: without it, nothing is known of what the call wrote, or whether it did anything at all. */
#if defined(__GNUC__)
#define CEFRODIL_CHECKED __attribute__((warn_unused_result))
#else
#define CEFRODIL_CHECKED
#endif

/* An export that takes no null pointer: a compiler that sees one in a call warns of it. */
#if defined(__GNUC__)
#define CEFRODIL_NO_NULL __attribute__((nonnull))
#else
#define CEFRODIL_NO_NULL
#endif

/* An export of which both are true. */
#define CEFRODIL_CALL CEFRODIL_CHECKED CEFRODIL_NO_NULL

/* The name by which a linker finds a call that a program makes first: cefrodil_open of 0.3 is cefrodil_open_0_3 there. So what was compiled with
 * the header of another series (the version without the patch) does not link. */
#define CEFRODIL_OF_SERIES(call) __asm__(#call "_" CEFRODIL_DIGITS(CEFRODIL_VERSION_MAJOR) "_" CEFRODIL_DIGITS(CEFRODIL_VERSION_MINOR))
#define CEFRODIL_DIGITS(number) CEFRODIL_QUOTED(number)
#define CEFRODIL_QUOTED(digits) #digits

#ifdef __cplusplus
#define CEFRODIL_SAME_SIZE(condition, text) static_assert(condition, text)
extern "C" {
#elif __STDC_VERSION__ >= 201112L
#define CEFRODIL_SAME_SIZE(condition, text) _Static_assert(condition, text)
#else
/* C99 has no assertion for the compiler: an array of a negative size serves. */
#define CEFRODIL_SAME_SIZE(condition, text) CEFRODIL_SIZE_AT(condition, __LINE__)
#define CEFRODIL_SIZE_AT(condition, line) CEFRODIL_SIZE_ON(condition, line)
#define CEFRODIL_SIZE_ON(condition, line) struct cefrodil_size_on_##line { char same[(condition) ? 1 : -1]; }
#endif

/* A handle, open or empty. Its members belong to the library. */
typedef struct cefrodil_handle {
    void *at_;
    bool live_;
} cefrodil_handle;

/* The value of an empty handle, with which it is declared. Every handle must have this value before it is opened. To assign it, write
 * `handle = cefrodil_empty();`, but never to an open handle: that would lose it. */
#ifdef __cplusplus
#define CEFRODIL_EMPTY {nullptr, false}
#else
#define CEFRODIL_EMPTY {NULL, false}
#endif

/* The sizes of a shard's table, and the limits of its calls. cefrodil_shape_for_items fills one in. */
typedef struct cefrodil_shape {
    uint64_t limit;   /* most version changes in the table's life, 0 to 2^62; each write makes at least two */
    uint32_t buckets; /* a power of two, 2 to 2^20; each bucket has four slots */
    uint32_t items;   /* most keys, 1 to four times the buckets; keep it below nine tenths of that */
    uint32_t stripes; /* number of version counters, a power of two, 1 to 2^16; the keys that share one are a stripe */
    uint32_t depth;   /* most keys that one put may move, 0 to 8 */
    uint32_t tries;   /* most tries of one lookup, 1 to 64 */
    uint32_t mix;     /* CEFRODIL_MIX_FULL or CEFRODIL_MIX_NONE */
    uint32_t policy;  /* CEFRODIL_POLICY_SCAN_RESISTANT or CEFRODIL_POLICY_CLOCK */
} cefrodil_shape;

/* Whether the library hashes keys, or takes them as they are. */
enum { CEFRODIL_MIX_FULL = 0, CEFRODIL_MIX_NONE = 1 };

/* Which key a full shard evicts for a new one. A key is used when a lookup finds it, other than cefrodil_peek, and when a put overwrites its
 * value.
 * SCAN_RESISTANT: a key that was not used since its put. So a scan evicts few keys that are in use. If more than nine in ten keys were used, one
 * of these is evicted. A key that is put again soon after its eviction counts as used.
 * CLOCK: a hand goes round the keys, and evicts the first that was neither put nor used since it last passed. So a scan may evict every key. */
enum { CEFRODIL_POLICY_SCAN_RESISTANT = 0, CEFRODIL_POLICY_CLOCK = 1 };

/* The numbers of an answer. Every call sets every field, with HELD and CLOSED too; a field that does not apply to the status is 0. So keep a
 * `since` that you need later in a variable of your own. */
typedef struct cefrodil_reply {
    uint64_t at;      /* number of changes to the key's shard when the answer was true; for a write, its own included, and an eviction
                       * before a put is a change of its own */
    uint64_t since;   /* the `at` of the key's last put */
    uint64_t evicted; /* the key that was evicted */
    uint32_t moves;   /* how many keys were moved for the new one */
    uint32_t put;     /* what the put did: one of CEFRODIL_PUT_.. */
} cefrodil_reply;

/* One answer of cefrodil_get_many. A field that does not apply to the status is 0. */
typedef struct cefrodil_answer {
    uint64_t at;     /* same as in cefrodil_reply */
    uint64_t since;  /* same as in cefrodil_reply */
    uint32_t status; /* OK, ABSENT or BUSY, as cefrodil_get returns them */
    uint32_t unused; /* always 0 */
} cefrodil_answer;

/* One answer of cefrodil_put_many. */
typedef struct cefrodil_put_answer {
    cefrodil_reply reply; /* same as that of cefrodil_put */
    uint32_t status;      /* as cefrodil_put returns it */
    uint32_t unused;      /* always 0 */
} cefrodil_put_answer;

/* What a put did. */
enum {
    CEFRODIL_PUT_NOTHING = 0, /* nothing was put */
    CEFRODIL_PUT_STORED = 1,  /* the key is new */
    CEFRODIL_PUT_EVICTED = 2, /* the key is new, and `evicted` was evicted for it */
    CEFRODIL_PUT_RENEWED = 3  /* the key was there; its value was overwritten */
};

CEFRODIL_SAME_SIZE(sizeof(cefrodil_handle) == 16, "as the library lays it out");
CEFRODIL_SAME_SIZE(sizeof(cefrodil_shape) == 40, "as the library lays it out");
CEFRODIL_SAME_SIZE(sizeof(cefrodil_reply) == 32, "as the library lays it out");
CEFRODIL_SAME_SIZE(sizeof(cefrodil_answer) == 24, "as the library lays it out");
CEFRODIL_SAME_SIZE(sizeof(cefrodil_put_answer) == 40, "as the library lays it out");

/* In the repository a program, .ci/calls, writes the lines from each mark with its name to the next `end`. Comments above prototypes are by hand. */

/* The status that a call returns. After any status but OK, no key and no value was changed by the call, unless a bounded put says that a key
 * has left. */
typedef enum cefrodil_status {
    /* .ci/calls: statuses */
    CEFRODIL_OK = 0,           /* done: found, put, removed, opened or closed */
    CEFRODIL_ABSENT = 1,       /* the key is not there */
    CEFRODIL_BUSY = 2,         /* changes spoiled every try of the lookup; says nothing about the table */
    CEFRODIL_NO_PATH = 3,      /* both buckets of the key are full, and no moves of up to `depth` keys free a slot; if frequent, take more buckets
                                * */
    CEFRODIL_ALL_RECENT = 4,   /* a key to evict was not found: the call looked at items, twice as often as there are items, and lookups had used
                                * each again. Call again, or leave the key uncached. Frequent only if the items are few; only recency bits changed
                                * */
    CEFRODIL_SPENT = 5,        /* the write could exceed the `limit` of the shape: open a new cache. 2^62 takes centuries */
    CEFRODIL_CHANGED = 6,      /* the key's last put was another one, at `since` */
    CEFRODIL_HELD = 7,         /* a try for a turn did not win, or another call takes spare handles; nothing was done */
    CEFRODIL_CLOSED = 8,       /* the handle is not open */
    CEFRODIL_HOLDS = 9,        /* the handle holds the turns already */
    CEFRODIL_WIDTH = 10,       /* values of this cache have another number of words */
    CEFRODIL_IN_USE = 11,      /* a handle that was to be opened is open already */
    CEFRODIL_NO_MEMORY = 12,   /* out of memory */
    CEFRODIL_BAD_WORDS = 13,   /* a value must have 1 to 8 words */
    CEFRODIL_BAD_MIX = 14,     /* the first field of the shape that is out of range, in the order BAD_MIX, BAD_POLICY, BAD_BUCKETS to BAD_LIMIT */
    CEFRODIL_BAD_BUCKETS = 15,
    CEFRODIL_BAD_ITEMS = 16,
    CEFRODIL_BAD_STRIPES = 17,
    CEFRODIL_BAD_DEPTH = 18,
    CEFRODIL_BAD_TRIES = 19,
    CEFRODIL_BAD_LIMIT = 20,
    CEFRODIL_BAD_HANDLES = 21, /* there must be 1 to 1024 handles; for cefrodil_more, no more than the cache has to spare */
    CEFRODIL_BAD_COUNT = 22,   /* counts that belong together do not match, or an array is too small for the list */
    CEFRODIL_NO_ITEM = 23,     /* every item is in use */
    CEFRODIL_BAD_SHARDS = 24,  /* the number of shards must be a power of two, 1 to 256 */
    CEFRODIL_PRESENT = 25,     /* the key is there; its last put was at `since` */
    CEFRODIL_HOLDS_NOT = 26,   /* the handle holds no turns */
    CEFRODIL_PROCESSOR = 27,   /* the processor is older than x86-64-v2: it can run no cache */
    CEFRODIL_BAD_POLICY = 28   /* as BAD_MIX */
    /* .ci/calls: end */
} cefrodil_status;

CEFRODIL_SAME_SIZE(sizeof(cefrodil_status) == 4, "as the library returns it: compile without -fshort-enums");

/* .ci/calls: prototypes */

/* The version of the archive. Compare it with CEFRODIL_VERSION. */
uint32_t cefrodil_version(void);

/* Fills in the shape of each of `shards` shards that hold `items` items together. One shard has room for just these. Each of several gets its
 * mean share and five standard deviations more, because the hash gives some shards more keys than others. `mix` and `policy` are 0.
 * OK, BAD_SHARDS, or BAD_ITEMS: no items, or more than 3,774,873 in a shard. Unless OK, the shape is unchanged. */
CEFRODIL_CALL cefrodil_status cefrodil_shape_for_items(uint32_t items, uint32_t shards, cefrodil_shape *shape)
    CEFRODIL_OF_SERIES(cefrodil_shape_for_items);

/* Opens a cache of `shards` shards, each a table of this shape, for values of `words` words. Each of `count` handles becomes a handle of
 * the cache. Threads that write different keys rarely want the same turn if there are several shards. Each shard evicts for itself.
 * OK: all these handles are open. IN_USE: one of them was open before; nothing was done. Otherwise returns the first error
 * that applies, in this order: BAD_WORDS, BAD_MIX, BAD_POLICY, BAD_SHARDS, BAD_BUCKETS to BAD_LIMIT, BAD_HANDLES, NO_MEMORY. No handle is
 * open, and nothing leaks. */
CEFRODIL_CALL cefrodil_status cefrodil_open(const cefrodil_shape *shape, uint32_t shards, size_t words, cefrodil_handle *handles,
                                            size_t count) CEFRODIL_OF_SERIES(cefrodil_open);

/* Opens a cache like cefrodil_open and puts `status_count` entries, in order, each in its key's shard. No entry evicts another. A key
 * that is listed twice is put twice. An entry is its key, then the words of its value, so `entry_words` must be `status_count` times
 * (1 + `words`).
 * OK: the handles are open. `statuses[i]` is OK if entry i was put; otherwise it is the first of these that applies: SPENT; NO_PATH, if no
 * moves lead to an empty slot for its key; NO_ITEM, if every item is in use. So a full table gives NO_PATH or NO_ITEM. These puts are
 * the first changes of the shards, and every handle finds the entries from its first lookup on. Other statuses are those of
 * cefrodil_open, and BAD_COUNT, right after BAD_WORDS, if `entry_words` does not match. Then `statuses` is unchanged. */
CEFRODIL_CALL cefrodil_status cefrodil_open_with(const cefrodil_shape *shape, uint32_t shards, size_t words, const uint64_t *entries,
                                                 size_t entry_words, cefrodil_status *statuses, size_t status_count,
                                                 cefrodil_handle *handles, size_t count) CEFRODIL_OF_SERIES(cefrodil_open_with);

/* Opens `count` more handles of the cache that `handle` is of. It needs no turn, so `handle` or another handle may hold them. A cache is
 * opened with 64 spare handles, or as many as 1,024 in all allow. A spare handle that was given out is used up, also after it is closed.
 * OK: they are open. IN_USE: one of `handles` was open before. CLOSED: `handle` is not open. BAD_HANDLES: `count` is 0, or more than there
 * are to spare. HELD: another call takes spare handles at the same moment. NO_MEMORY: some spare handles may be used up. Unless OK, none of
 * `handles` was opened. */
CEFRODIL_CALL cefrodil_status cefrodil_more(cefrodil_handle *handle, cefrodil_handle *handles, size_t count);

/* Looks a key up. By a handle that holds the turns it is never busy.
 * OK: `value`, `at` and `since` are set. ABSENT: `at` is set. BUSY: ask again, or treat it as a miss. If a thread stops in the middle of
 * a change, lookups in the stripe that it changes are busy until it continues.
 * CLOSED, WIDTH. `value` is written only with OK. `reply` may be null. */
CEFRODIL_CALL cefrodil_status cefrodil_get(cefrodil_handle *handle, uint64_t key, uint64_t *value, size_t words, cefrodil_reply *reply);

/* Looks `key_count` keys up. Equivalent to calling cefrodil_get for each key in order. `values` has one value after the other,
 * so `value_words` must be `key_count` times the words of a value.
 * OK: answer i is that of key i; value i was written if its status is OK, and is unchanged otherwise.
 * CLOSED; BAD_COUNT: `answer_count` is not `key_count`; WIDTH: `value_words` does not match. With these nothing is written. */
CEFRODIL_CALL cefrodil_status cefrodil_get_many(cefrodil_handle *handle, const uint64_t *keys, size_t key_count, uint64_t *values,
                                                size_t value_words, cefrodil_answer *answers, size_t answer_count);

/* Loads the words that a lookup of the key will read, so that a lookup which follows waits less for them: for a program that knows its next key
 * while it works on another. It pays in caches that are larger than the processor's. It changes nothing, and no answer depends on it.
 * OK. CLOSED. */
CEFRODIL_NO_NULL cefrodil_status cefrodil_prefetch(cefrodil_handle *handle, uint64_t key);

/* Like cefrodil_get. If the lookup is busy, it tries once for the turn of the key's shard. With the turn nothing disturbs the lookup, so it
 * is not busy. BUSY: that try did not win. */
CEFRODIL_CALL cefrodil_status cefrodil_get_or_turn(cefrodil_handle *handle, uint64_t key, uint64_t *value, size_t words,
                                                   cefrodil_reply *reply);

/* Looks a key up in a turn, for which it tries once. It doesn't count as a use of the key, so it is for reports and decisions, not for
 * reads.
 * OK, ABSENT: as for cefrodil_get. The answer was true during the turn. HELD: the try did not win. CLOSED, WIDTH. Unless OK, `value` is
 * unchanged. */
CEFRODIL_CALL cefrodil_status cefrodil_peek(cefrodil_handle *handle, uint64_t key, uint64_t *value, size_t words, cefrodil_reply *reply);

/* Each write tries once for the turn of its key's shard, unless the handle holds the turns. HELD: the try did not win, and nothing was
 * changed but the reply, so a value that should be removed is still there. Try again, or note the key.
 *
 * Puts a key with this value. A new key evicts another one if its shard is full, which has `items` keys then.
 * OK: `at`, `put` and `moves` are set, and with PUT_EVICTED `evicted`. NO_PATH or ALL_RECENT: the key is absent, and was not put. SPENT: it
 * was not put, and an earlier value stays. HELD, CLOSED, WIDTH. */
CEFRODIL_CALL cefrodil_status cefrodil_put(cefrodil_handle *handle, uint64_t key, const uint64_t *value, size_t words,
                                           cefrodil_reply *reply);

/* Overwrites the value of a key if its last put was at `since`, as a lookup of the key returned it.
 * OK: `at` is set, and `put` is PUT_RENEWED. ABSENT: `at` is set. CHANGED: `since` is that of the key's last put.
 * SPENT, HELD, CLOSED, WIDTH. */
CEFRODIL_CALL cefrodil_status cefrodil_put_if(cefrodil_handle *handle, uint64_t key, uint64_t since, const uint64_t *value, size_t words,
                                              cefrodil_reply *reply);

/* Puts a key only if it is absent. Evicts as cefrodil_put does.
 * OK: as in cefrodil_put; `put` is never PUT_RENEWED. PRESENT: `since` is that of the key's last put, and the key counts as used.
 * NO_PATH, ALL_RECENT or SPENT: the key is absent, and was not put. HELD, CLOSED, WIDTH. */
CEFRODIL_CALL cefrodil_status cefrodil_put_if_absent(cefrodil_handle *handle, uint64_t key, const uint64_t *value, size_t words,
                                                     cefrodil_reply *reply);

/* Like cefrodil_put and cefrodil_put_if_absent, in a shard that is to hold at most `most` keys. If the key is new and its shard holds as many,
 * and one at least, another key of the shard is evicted first, though items are free. It is all done in one turn.
 * OK: as for those calls. PUT_EVICTED: `evicted` is the key that left. NO_PATH, ALL_RECENT or SPENT: the key was not put. If `put` is PUT_EVICTED
 * all the same, `evicted` has left before. Otherwise `put` is PUT_NOTHING, and nothing was changed. Other statuses are those of these calls. */
CEFRODIL_CALL cefrodil_status cefrodil_put_bounded(cefrodil_handle *handle, uint64_t key, uint32_t most, const uint64_t *value,
                                                   size_t words, cefrodil_reply *reply);
CEFRODIL_CALL cefrodil_status cefrodil_put_if_absent_bounded(cefrodil_handle *handle, uint64_t key, uint32_t most, const uint64_t *value,
                                                             size_t words, cefrodil_reply *reply);

/* Removes a key.
 * OK and ABSENT: `at` is set. SPENT, HELD, CLOSED. */
CEFRODIL_CALL cefrodil_status cefrodil_remove(cefrodil_handle *handle, uint64_t key, cefrodil_reply *reply);

/* Puts `key_count` keys. Equivalent to calling cefrodil_put for each key in order, so it tries once for each key. If you put held keys
 * again, their puts come last. `values` has one value after the other, so `value_words` must be `key_count` times the words of a value.
 * OK: answer i is that of key i. CLOSED; BAD_COUNT: `answer_count` is not `key_count`; WIDTH: `value_words` does not match. With these
 * nothing was done, and nothing is written. */
CEFRODIL_CALL cefrodil_status cefrodil_put_many(cefrodil_handle *handle, const uint64_t *keys, size_t key_count, const uint64_t *values,
                                                size_t value_words, cefrodil_put_answer *answers, size_t answer_count);

/* Like cefrodil_put, but tries up to `tries` times for the turn, at least once, one try after the other without a pause. HELD: none of
 * them won. */
CEFRODIL_CALL cefrodil_status cefrodil_put_within(cefrodil_handle *handle, uint32_t tries, uint64_t key, const uint64_t *value,
                                                  size_t words, cefrodil_reply *reply);

/* Like cefrodil_put, cefrodil_put_if and cefrodil_put_if_absent, and they also return the entry that gives way: the key's
 * earlier one, or that of the key that was evicted. So a program that keeps objects behind the cache knows which to free. `old` has
 * `old_words` words. OK: as for those calls. If an entry gave way, `old` is its value, and `since` the `at` of its last put. If a new key
 * evicted none, `old` is unchanged, and `since` is 0. WIDTH: `words` or `old_words` does not match. Other statuses are theirs. Unless OK,
 * `old` is unchanged. */
CEFRODIL_CALL cefrodil_status cefrodil_swap(cefrodil_handle *handle, uint64_t key, const uint64_t *value, size_t words, uint64_t *old,
                                            size_t old_words, cefrodil_reply *reply);
CEFRODIL_CALL cefrodil_status cefrodil_swap_if(cefrodil_handle *handle, uint64_t key, uint64_t since, const uint64_t *value, size_t words,
                                               uint64_t *old, size_t old_words, cefrodil_reply *reply);
CEFRODIL_CALL cefrodil_status cefrodil_swap_if_absent(cefrodil_handle *handle, uint64_t key, const uint64_t *value, size_t words,
                                                      uint64_t *old, size_t old_words, cefrodil_reply *reply);

/* Like cefrodil_swap and cefrodil_swap_if_absent, in a shard that is to hold at most `most` keys. If the key is new and its shard holds as many,
 * and one at least, another key of the shard is evicted first, though items are free. It is all done in one turn.
 * OK: as for those calls. PUT_EVICTED: `evicted` is the key that left, `old` its value, `since` the `at` of its last put. NO_PATH, ALL_RECENT
 * or SPENT: the key was not put. If `put` is PUT_EVICTED all the same, a key has left before: `evicted`, `old` and `since` have its entry, so
 * free what you keep behind it. Otherwise `put` is PUT_NOTHING, and nothing was changed. Other statuses are those of these calls. */
CEFRODIL_CALL cefrodil_status cefrodil_swap_bounded(cefrodil_handle *handle, uint64_t key, uint32_t most, const uint64_t *value,
                                                    size_t words, uint64_t *old, size_t old_words, cefrodil_reply *reply);
CEFRODIL_CALL cefrodil_status cefrodil_swap_if_absent_bounded(cefrodil_handle *handle, uint64_t key, uint32_t most, const uint64_t *value,
                                                              size_t words, uint64_t *old, size_t old_words, cefrodil_reply *reply);

/* Like cefrodil_remove, and returns the entry of the key, as cefrodil_swap does.
 * OK: `at` is set, `old` is the value, and `since` the `at` of its last put. ABSENT: `at` is set. SPENT, HELD, CLOSED, WIDTH. Unless OK, `old` is
 * unchanged. */
CEFRODIL_CALL cefrodil_status cefrodil_take(cefrodil_handle *handle, uint64_t key, uint64_t *old, size_t old_words, cefrodil_reply *reply);

/* Like cefrodil_take, if the key's last put was at `since`, as a lookup of the key returned it. So a program that found an entry too old
 * removes that one, and no later one.
 * OK: as for cefrodil_take. CHANGED: `since` is that of the key's last put. Otherwise ABSENT, SPENT, HELD, CLOSED, WIDTH. */
CEFRODIL_CALL cefrodil_status cefrodil_take_if(cefrodil_handle *handle, uint64_t key, uint64_t since, uint64_t *old, size_t old_words,
                                               cefrodil_reply *reply);

/* Evicts a key without a put: the one that would give way to a new key if the shard were full. The shard is that of the key `near`, which
 * need not be there; with one shard any key will do. So a program frees what it keeps behind the cache, or keeps room for the next puts.
 * OK: `evicted` is the key, `old` its value, `since` the `at` of its last put. ABSENT: the shard has no key; `at` is set. ALL_RECENT: as for
 * a put. SPENT, HELD, CLOSED, WIDTH. Unless OK, `old` is unchanged. */
CEFRODIL_CALL cefrodil_status cefrodil_evict(cefrodil_handle *handle, uint64_t near, uint64_t *old, size_t old_words,
                                             cefrodil_reply *reply);

/* Looks at the entry that lies at a place of the table: in item `item`, from 0, of the shard of the key `near`. It is no use of the entry's
 * key. An entry stays in its item until its key is removed or evicted. So a program goes round all entries of a shard, a few at a time.
 * OK: `evicted` is its key, which nothing has evicted, `value` its value, `since` the `at` of its last put. ABSENT: the item has no entry, or
 * the shape has fewer items. HELD, CLOSED, WIDTH. Unless OK, `value` is unchanged. */
CEFRODIL_CALL cefrodil_status cefrodil_entry_at(cefrodil_handle *handle, uint64_t near, uint32_t item, uint64_t *value, size_t words,
                                                cefrodil_reply *reply);

/* Takes the turn of every shard and holds them: nobody else writes until cefrodil_release or cefrodil_close. It takes no memory. Meanwhile
 * the writes of this handle are never HELD, its lookups never BUSY, and each list and number that it asks for is of one moment of all
 * shards. Other handles look up as before, and their writes are HELD.
 * OK: it holds. HELD: one of the tries did not win; it holds none. CLOSED. HOLDS: it holds already. */
CEFRODIL_CALL cefrodil_status cefrodil_hold(cefrodil_handle *handle);

/* Gives the turn of every shard back. The handle has seen all that it wrote.
 * OK. CLOSED. HOLDS_NOT: it holds none. */
CEFRODIL_CALL cefrodil_status cefrodil_release(cefrodil_handle *handle);

/* The number of changes to all shards at one moment, or 2^64 - 1 if there were more. A handle that doesn't hold the turns tries once for
 * every turn, as cefrodil_hold does, and gives them back.
 * OK: the number is set. HELD: one of the tries did not win. CLOSED. Unless OK, the number is unchanged. */
CEFRODIL_CALL cefrodil_status cefrodil_moment(cefrodil_handle *handle, uint64_t *moment);

/* The number of keys. It does not look through the tables. A handle that doesn't hold the turns tries once for the turn of each shard in
 * order, and adds up numbers of several moments.
 * OK: `len` is set. HELD: a try did not win. CLOSED. Unless OK, `len` is unchanged. */
CEFRODIL_CALL cefrodil_status cefrodil_len(cefrodil_handle *handle, uint64_t *len);

/* The number of keys that the cache holds at most: the `items` of its shape, times the shards.
 * OK: the number is set. CLOSED: it is unchanged. */
CEFRODIL_CALL cefrodil_status cefrodil_capacity(cefrodil_handle *handle, uint64_t *capacity);

/* Lists each key with its value. A handle that doesn't hold the turns tries once for the turn of each shard in order, so it lists each
 * shard at a moment of its own. An entry is its key, then the words of its value, as cefrodil_open_with takes it. Other handles may look
 * up meanwhile. This call takes memory for the whole list, and frees it. To ask for the number of entries, pass 0 as `entry_words`: then
 * it counts as cefrodil_len does, and takes no memory. With CEFRODIL_NO_MACROS it makes the list all the same.
 * OK: the first `count` entries of `entries` are written. BAD_COUNT: there are `count` entries, and `entry_words` is less than
 * `count` times (1 + the words of a value). HELD: a try did not win. CLOSED, NO_MEMORY. Unless OK, `entries` is unchanged. With
 * other statuses than OK and BAD_COUNT, `count` is unchanged too. */
CEFRODIL_CALL cefrodil_status cefrodil_entries(cefrodil_handle *handle, uint64_t *entries, size_t entry_words, uint64_t *count);

/* Lists each entry with its stamp, at one moment of all shards. A handle that doesn't hold the turns tries once for every turn, as
 * cefrodil_moment does. An entry is its key, then the words of its value, then its stamp: the `since` of the key. So it has 2 + the words
 * of a value. A stamp counts the changes of the key's shard.
 * Returns what cefrodil_entries returns, also for 0 as `entry_words`. */
CEFRODIL_CALL cefrodil_status cefrodil_stamped_entries(cefrodil_handle *handle, uint64_t *entries, size_t entry_words, uint64_t *count);

/* Closes a handle, in any thread. One that holds the turns gives them back. Closing the last handle frees the cache.
 * OK, or CLOSED if it was not open, or null. The handle is closed afterwards. */
CEFRODIL_NO_NULL cefrodil_status cefrodil_close(cefrodil_handle *handle);

/* .ci/calls: end */

/* cefrodil_get, cefrodil_put and cefrodil_get_or_turn for values of 1 to 8 words. An optimizing compiler calls these where `words` is a
 * constant, because they take fewer instructions. A program has no need to name them: each returns what the call without a number
 * returns. */
/* .ci/calls: widths */
CEFRODIL_CALL cefrodil_status cefrodil_get_1(cefrodil_handle *handle, uint64_t key, uint64_t *value, cefrodil_reply *reply);
CEFRODIL_CALL cefrodil_status cefrodil_get_2(cefrodil_handle *handle, uint64_t key, uint64_t *value, cefrodil_reply *reply);
CEFRODIL_CALL cefrodil_status cefrodil_get_3(cefrodil_handle *handle, uint64_t key, uint64_t *value, cefrodil_reply *reply);
CEFRODIL_CALL cefrodil_status cefrodil_get_4(cefrodil_handle *handle, uint64_t key, uint64_t *value, cefrodil_reply *reply);
CEFRODIL_CALL cefrodil_status cefrodil_get_5(cefrodil_handle *handle, uint64_t key, uint64_t *value, cefrodil_reply *reply);
CEFRODIL_CALL cefrodil_status cefrodil_get_6(cefrodil_handle *handle, uint64_t key, uint64_t *value, cefrodil_reply *reply);
CEFRODIL_CALL cefrodil_status cefrodil_get_7(cefrodil_handle *handle, uint64_t key, uint64_t *value, cefrodil_reply *reply);
CEFRODIL_CALL cefrodil_status cefrodil_get_8(cefrodil_handle *handle, uint64_t key, uint64_t *value, cefrodil_reply *reply);
CEFRODIL_CALL cefrodil_status cefrodil_get_or_turn_1(cefrodil_handle *handle, uint64_t key, uint64_t *value, cefrodil_reply *reply);
CEFRODIL_CALL cefrodil_status cefrodil_get_or_turn_2(cefrodil_handle *handle, uint64_t key, uint64_t *value, cefrodil_reply *reply);
CEFRODIL_CALL cefrodil_status cefrodil_get_or_turn_3(cefrodil_handle *handle, uint64_t key, uint64_t *value, cefrodil_reply *reply);
CEFRODIL_CALL cefrodil_status cefrodil_get_or_turn_4(cefrodil_handle *handle, uint64_t key, uint64_t *value, cefrodil_reply *reply);
CEFRODIL_CALL cefrodil_status cefrodil_get_or_turn_5(cefrodil_handle *handle, uint64_t key, uint64_t *value, cefrodil_reply *reply);
CEFRODIL_CALL cefrodil_status cefrodil_get_or_turn_6(cefrodil_handle *handle, uint64_t key, uint64_t *value, cefrodil_reply *reply);
CEFRODIL_CALL cefrodil_status cefrodil_get_or_turn_7(cefrodil_handle *handle, uint64_t key, uint64_t *value, cefrodil_reply *reply);
CEFRODIL_CALL cefrodil_status cefrodil_get_or_turn_8(cefrodil_handle *handle, uint64_t key, uint64_t *value, cefrodil_reply *reply);
CEFRODIL_CALL cefrodil_status cefrodil_put_1(cefrodil_handle *handle, uint64_t key, const uint64_t *value, cefrodil_reply *reply);
CEFRODIL_CALL cefrodil_status cefrodil_put_2(cefrodil_handle *handle, uint64_t key, const uint64_t *value, cefrodil_reply *reply);
CEFRODIL_CALL cefrodil_status cefrodil_put_3(cefrodil_handle *handle, uint64_t key, const uint64_t *value, cefrodil_reply *reply);
CEFRODIL_CALL cefrodil_status cefrodil_put_4(cefrodil_handle *handle, uint64_t key, const uint64_t *value, cefrodil_reply *reply);
CEFRODIL_CALL cefrodil_status cefrodil_put_5(cefrodil_handle *handle, uint64_t key, const uint64_t *value, cefrodil_reply *reply);
CEFRODIL_CALL cefrodil_status cefrodil_put_6(cefrodil_handle *handle, uint64_t key, const uint64_t *value, cefrodil_reply *reply);
CEFRODIL_CALL cefrodil_status cefrodil_put_7(cefrodil_handle *handle, uint64_t key, const uint64_t *value, cefrodil_reply *reply);
CEFRODIL_CALL cefrodil_status cefrodil_put_8(cefrodil_handle *handle, uint64_t key, const uint64_t *value, cefrodil_reply *reply);
/* .ci/calls: end */

#ifdef __cplusplus
}
#endif

/* CEFRODIL_INLINE: how this header defines a function. In C++ it is one function in all files of a program, so inline functions of other headers
 * may call it. CEFRODIL_INLINED: the same, compiled into the caller; these pointers are not null. CEFRODIL_KNOWN: whether the compiler knows
 * this number there. */
#ifdef __cplusplus
#define CEFRODIL_INLINE inline
#else
#define CEFRODIL_INLINE static inline
#endif
#if defined(__GNUC__)
#define CEFRODIL_INLINED(pointers) CEFRODIL_INLINE __attribute__((always_inline, pointers))
#define CEFRODIL_KNOWN(number) __builtin_constant_p(number)
#else
#define CEFRODIL_INLINED(pointers) CEFRODIL_INLINE
#define CEFRODIL_KNOWN(number) 0
#endif

/* An empty handle, as CEFRODIL_EMPTY. */
CEFRODIL_INLINE cefrodil_handle cefrodil_empty(void) {
    const cefrodil_handle empty = CEFRODIL_EMPTY;
    return empty;
}

/* Moves a handle: returns it, and leaves the old place empty. */
CEFRODIL_CHECKED CEFRODIL_INLINE cefrodil_handle cefrodil_move(cefrodil_handle *from) {
    const cefrodil_handle taken = *from;
    *from = cefrodil_empty();
    return taken;
}

/* Counts the entries for a list that has no room, and makes no list. */
CEFRODIL_CHECKED CEFRODIL_INLINE cefrodil_status cefrodil_list_without_room(cefrodil_handle *handle, uint64_t *count) {
    const cefrodil_status status = cefrodil_len(handle, count);
    return status == CEFRODIL_OK && *count != 0 ? CEFRODIL_BAD_COUNT : status;
}

/* The exports take no null pointer. The functions from here on take one where that is allowed, and three of them call the export for
 * the width of a value if that is a constant. The macros behind them give them the names of the exports. A program that defines
 * CEFRODIL_NO_MACROS has none of these: then no pointer may be null, and cefrodil_get_of_width and so on are called by their own names. */
/* .ci/calls: wrappers */
CEFRODIL_CHECKED CEFRODIL_INLINE cefrodil_status cefrodil_open_with_or_none(const cefrodil_shape *shape, uint32_t shards, size_t words,
                                                                            const uint64_t *entries, size_t entry_words, cefrodil_status *statuses,
                                                                            size_t status_count, cefrodil_handle *handles, size_t count) {
    uint64_t no_entries = 0;
    cefrodil_status no_statuses;
    return cefrodil_open_with(shape, shards, words, entry_words != 0 ? entries : &no_entries, entry_words,
                              status_count != 0 ? statuses : &no_statuses, status_count, handles, count);
}

CEFRODIL_CHECKED CEFRODIL_INLINED(nonnull(1, 3)) cefrodil_status cefrodil_get_of_width(cefrodil_handle *handle, uint64_t key, uint64_t *value,
                                                                                       size_t words, cefrodil_reply *reply) {
    cefrodil_reply unread;
    cefrodil_reply *const told = reply ? reply : &unread;
    switch (CEFRODIL_KNOWN(words) ? words : 0) {
    case 1: return cefrodil_get_1(handle, key, value, told);
    case 2: return cefrodil_get_2(handle, key, value, told);
    case 3: return cefrodil_get_3(handle, key, value, told);
    case 4: return cefrodil_get_4(handle, key, value, told);
    case 5: return cefrodil_get_5(handle, key, value, told);
    case 6: return cefrodil_get_6(handle, key, value, told);
    case 7: return cefrodil_get_7(handle, key, value, told);
    case 8: return cefrodil_get_8(handle, key, value, told);
    default: return cefrodil_get(handle, key, value, words, told);
    }
}

CEFRODIL_CHECKED CEFRODIL_INLINE cefrodil_status cefrodil_get_many_or_none(cefrodil_handle *handle, const uint64_t *keys, size_t key_count,
                                                                           uint64_t *values, size_t value_words, cefrodil_answer *answers,
                                                                           size_t answer_count) {
    uint64_t no_keys = 0, no_values = 0;
    cefrodil_answer no_answers;
    return cefrodil_get_many(handle, key_count != 0 ? keys : &no_keys, key_count, value_words != 0 ? values : &no_values, value_words,
                             answer_count != 0 ? answers : &no_answers, answer_count);
}

CEFRODIL_CHECKED CEFRODIL_INLINED(nonnull) cefrodil_status cefrodil_get_or_turn_of_width(cefrodil_handle *handle, uint64_t key, uint64_t *value,
                                                                                         size_t words, cefrodil_reply *reply) {
    switch (CEFRODIL_KNOWN(words) ? words : 0) {
    case 1: return cefrodil_get_or_turn_1(handle, key, value, reply);
    case 2: return cefrodil_get_or_turn_2(handle, key, value, reply);
    case 3: return cefrodil_get_or_turn_3(handle, key, value, reply);
    case 4: return cefrodil_get_or_turn_4(handle, key, value, reply);
    case 5: return cefrodil_get_or_turn_5(handle, key, value, reply);
    case 6: return cefrodil_get_or_turn_6(handle, key, value, reply);
    case 7: return cefrodil_get_or_turn_7(handle, key, value, reply);
    case 8: return cefrodil_get_or_turn_8(handle, key, value, reply);
    default: return cefrodil_get_or_turn(handle, key, value, words, reply);
    }
}

CEFRODIL_CHECKED CEFRODIL_INLINED(nonnull) cefrodil_status cefrodil_put_of_width(cefrodil_handle *handle, uint64_t key, const uint64_t *value,
                                                                                 size_t words, cefrodil_reply *reply) {
    switch (CEFRODIL_KNOWN(words) ? words : 0) {
    case 1: return cefrodil_put_1(handle, key, value, reply);
    case 2: return cefrodil_put_2(handle, key, value, reply);
    case 3: return cefrodil_put_3(handle, key, value, reply);
    case 4: return cefrodil_put_4(handle, key, value, reply);
    case 5: return cefrodil_put_5(handle, key, value, reply);
    case 6: return cefrodil_put_6(handle, key, value, reply);
    case 7: return cefrodil_put_7(handle, key, value, reply);
    case 8: return cefrodil_put_8(handle, key, value, reply);
    default: return cefrodil_put(handle, key, value, words, reply);
    }
}

CEFRODIL_CHECKED CEFRODIL_INLINE cefrodil_status cefrodil_put_many_or_none(cefrodil_handle *handle, const uint64_t *keys, size_t key_count,
                                                                           const uint64_t *values, size_t value_words, cefrodil_put_answer *answers,
                                                                           size_t answer_count) {
    uint64_t no_keys = 0, no_values = 0;
    cefrodil_put_answer no_answers;
    return cefrodil_put_many(handle, key_count != 0 ? keys : &no_keys, key_count, value_words != 0 ? values : &no_values, value_words,
                             answer_count != 0 ? answers : &no_answers, answer_count);
}

CEFRODIL_CHECKED CEFRODIL_INLINE cefrodil_status cefrodil_entries_or_none(cefrodil_handle *handle, uint64_t *entries, size_t entry_words,
                                                                          uint64_t *count) {
    return entry_words != 0 ? cefrodil_entries(handle, entries, entry_words, count) : cefrodil_list_without_room(handle, count);
}

CEFRODIL_CHECKED CEFRODIL_INLINE cefrodil_status cefrodil_stamped_entries_or_none(cefrodil_handle *handle, uint64_t *entries, size_t entry_words,
                                                                                  uint64_t *count) {
    return entry_words != 0 ? cefrodil_stamped_entries(handle, entries, entry_words, count) : cefrodil_list_without_room(handle, count);
}

CEFRODIL_INLINE cefrodil_status cefrodil_close_unless_null(cefrodil_handle *handle) {
    return handle ? cefrodil_close(handle) : CEFRODIL_CLOSED;
}
/* .ci/calls: end */

#ifndef CEFRODIL_NO_MACROS
/* .ci/calls: macros */
#define cefrodil_open_with cefrodil_open_with_or_none
#define cefrodil_get cefrodil_get_of_width
#define cefrodil_get_many cefrodil_get_many_or_none
#define cefrodil_get_or_turn cefrodil_get_or_turn_of_width
#define cefrodil_put cefrodil_put_of_width
#define cefrodil_put_many cefrodil_put_many_or_none
#define cefrodil_entries cefrodil_entries_or_none
#define cefrodil_stamped_entries cefrodil_stamped_entries_or_none
#define cefrodil_close cefrodil_close_unless_null
/* .ci/calls: end */
#endif

/* The text of a status. Both libraries have it as a call of this name, too. */
CEFRODIL_INLINE const char *cefrodil_text(uint32_t status) {
    switch (status) {
    /* .ci/calls: texts */
    case CEFRODIL_OK: return "ok";
    case CEFRODIL_ABSENT: return "absent";
    case CEFRODIL_BUSY: return "busy";
    case CEFRODIL_NO_PATH: return "no path";
    case CEFRODIL_ALL_RECENT: return "all recent";
    case CEFRODIL_SPENT: return "spent";
    case CEFRODIL_CHANGED: return "changed";
    case CEFRODIL_HELD: return "held";
    case CEFRODIL_CLOSED: return "the handle is not open";
    case CEFRODIL_HOLDS: return "the handle holds the turns already";
    case CEFRODIL_WIDTH: return "values of this cache have another number of words";
    case CEFRODIL_IN_USE: return "the handle is open already";
    case CEFRODIL_NO_MEMORY: return "no memory";
    case CEFRODIL_BAD_WORDS: return "a value must have from 1 to 8 words";
    case CEFRODIL_BAD_MIX: return "mix must be 0 or 1";
    case CEFRODIL_BAD_BUCKETS: return "buckets must be a power of two from 2 to 1048576";
    case CEFRODIL_BAD_ITEMS: return "items must be from 1 to four times the buckets";
    case CEFRODIL_BAD_STRIPES: return "stripes must be a power of two from 1 to 65536";
    case CEFRODIL_BAD_DEPTH: return "depth must be from 0 to 8";
    case CEFRODIL_BAD_TRIES: return "tries must be from 1 to 64";
    case CEFRODIL_BAD_LIMIT: return "limit must be from 0 to 4611686018427387904";
    case CEFRODIL_BAD_HANDLES: return "handles must be from 1 to 1024, and no more than there are to spare";
    case CEFRODIL_BAD_COUNT: return "counts do not match, or an array is too small for the list";
    case CEFRODIL_NO_ITEM: return "no item";
    case CEFRODIL_BAD_SHARDS: return "shards must be a power of two from 1 to 256";
    case CEFRODIL_PRESENT: return "present";
    case CEFRODIL_HOLDS_NOT: return "the handle holds no turns";
    case CEFRODIL_PROCESSOR: return "the processor is older than x86-64-v2";
    case CEFRODIL_BAD_POLICY: return "policy must be 0 or 1";
    /* .ci/calls: end */
    default: return "no status";
    }
}

#endif
