/* Which key gives way by each policy: rows worked out by hand. A cache keeps its policy, whichever of its handles makes a call. */
#include "cefrodil.h"
#include "must.h"
#include <stdlib.h>

/* The first key; its multiples are the others. They are not mixed, so the n-th key is noted at a place of four by n, and the note says n. */
#define K UINT64_C(0x140000001)
/* A key with this bit is in the second shard. */
#define OTHER (UINT64_C(1) << 48)

enum { HANDLES = 3, ENTRY = 2, FIRST = 4 };

/* A call: the number of its key, and that of the key which gives way, or 0. EVICT evicts in the shard of its key, which need not be there. */
enum call { PUT, RENEW, GET, EVICT };
struct row {
    enum call call;
    uint64_t key, evicted;
};

/* Key 2 is used once. Then it stays while new keys come and go. */
static const struct row scan[] = {{PUT, 1, 0}, {PUT, 2, 0}, {PUT, 3, 0}, {PUT, 4, 0}, {PUT, 5, 1}, {GET, 2, 0}, {PUT, 6, 3},
                                  {PUT, 7, 4}, {PUT, 8, 5}, {PUT, 9, 6}, {PUT, 10, 7}, {PUT, 11, 8}, {GET, 2, 0}};
/* With CLOCK the hand passes it, and comes round again. */
static const struct row scan_by_clock[] = {{PUT, 1, 0}, {PUT, 2, 0}, {PUT, 3, 0}, {PUT, 4, 0}, {PUT, 5, 1}, {GET, 2, 0}, {PUT, 6, 3},
                                           {PUT, 7, 4}, {PUT, 8, 2}, {PUT, 9, 5}, {PUT, 10, 6}, {PUT, 11, 7}, {GET, 8, 0}};
/* Key 2 gives way while it is new, and is put again soon: from then on it stays as key 1 does, which was used. */
static const struct row again[] = {{PUT, 1, 0}, {PUT, 2, 0}, {PUT, 3, 0}, {PUT, 4, 0}, {GET, 1, 0}, {PUT, 5, 2}, {PUT, 6, 3},
                                   {PUT, 2, 4}, {PUT, 7, 5}, {PUT, 8, 6}, {PUT, 9, 7}, {GET, 2, 0}, {GET, 1, 0}};
/* CLOCK's hand clears all bits before the first eviction, so key 1 goes in spite of its use. */
static const struct row again_by_clock[] = {{PUT, 1, 0}, {PUT, 2, 0}, {PUT, 3, 0}, {PUT, 4, 0}, {GET, 1, 0}, {PUT, 5, 1}, {PUT, 6, 2},
                                            {PUT, 2, 3}, {PUT, 7, 4}, {PUT, 8, 5}, {PUT, 9, 6}, {GET, 2, 0}};
/* In the end all four keys were used, one more than may be. So the first of them gives way that was not used since it was looked at. */
static const struct row all_used[] = {{PUT, 1, 0}, {PUT, 2, 0}, {PUT, 3, 0}, {PUT, 4, 0}, {GET, 1, 0}, {RENEW, 2, 0}, {GET, 3, 0},
                                      {PUT, 5, 4}, {GET, 1, 0}, {GET, 5, 0}, {PUT, 6, 2}, {PUT, 2, 6}, {PUT, 7, 2}};
/* Key 1 was used, so it goes last. Keys 2 to 4 gave way while they were new. So key 2, which is put again, stays longer than key 5. */
static const struct row emptied[] = {{PUT, 1, 0}, {PUT, 2, 0}, {PUT, 3, 0}, {PUT, 4, 0}, {GET, 1, 0}, {EVICT, 0, 2}, {EVICT, 9, 3},
                                     {EVICT, 1, 4}, {EVICT, 4, 1}, {EVICT, 1, 0}, {PUT, 2, 0}, {PUT, 5, 0}, {EVICT, 2, 5}, {EVICT, 2, 2},
                                     {EVICT, 2, 0}};
/* The hand clears all bits, and evicts key 1 and then key 2. It passes key 3, which is used, and key 5, which is put, and comes round again. */
static const struct row emptied_by_clock[] = {{PUT, 1, 0}, {PUT, 2, 0}, {PUT, 3, 0}, {PUT, 4, 0}, {GET, 1, 0}, {EVICT, 0, 1}, {EVICT, 9, 2},
                                              {GET, 3, 0}, {EVICT, 1, 4}, {PUT, 5, 0}, {EVICT, 5, 3}, {EVICT, 2, 5}, {EVICT, 5, 0}};
/* By each policy: a put that finds an item free evicts none, and the next one evicts the key after the one that went last. */
static const struct row between_puts[] = {{PUT, 1, 0}, {PUT, 2, 0}, {PUT, 3, 0}, {PUT, 4, 0}, {EVICT, 1, 1}, {PUT, 5, 0}, {PUT, 6, 2},
                                          {EVICT, 7, 3}, {PUT, 7, 0}, {PUT, 8, 4}, {EVICT, 8, 5}, {GET, 8, 0}};
static const struct row one_emptied[] = {{PUT, 1, 0}, {GET, 1, 0}, {EVICT, 1, 1}, {EVICT, 1, 0},
                                         {PUT, 2, 0}, {PUT, 3, 2}, {EVICT, 2, 3}, {EVICT, 3, 0}};
/* The one key gives way to each new one, used or not. */
static const struct row one_item[] = {{PUT, 1, 0}, {PUT, 2, 1}, {GET, 2, 0}, {PUT, 3, 2}, {PUT, 2, 3}, {RENEW, 2, 0}, {PUT, 1, 2}};

/* The last handle is asked for when the cache is open. */
static cefrodil_handle handles[HANDLES];
static cefrodil_shape shape = {.limit = UINT64_C(1) << 62, .buckets = 8, .stripes = 4, .depth = 5, .tries = 8, .mix = CEFRODIL_MIX_NONE};

/* Makes the call of a row, each time by another handle. The second one holds meanwhile. */
static void play(const struct row *row, size_t step, uint64_t shard) {
    cefrodil_handle *const handle = &handles[step % HANDLES];
    const bool holds = handle == &handles[1];
    const uint64_t key = row->key * K + shard * OTHER, evicted = row->evicted != 0 ? row->evicted * K + shard * OTHER : 0;
    uint64_t value = key;
    cefrodil_reply reply = {0, 0, 0, 0, 0};
    MUST(!holds || cefrodil_hold(handle) == CEFRODIL_OK);
    switch (row->call) {
    case GET: MUST(cefrodil_get(handle, key, &value, 1, &reply) == CEFRODIL_OK && value == key); break;
    case EVICT:
        MUST(cefrodil_evict(handle, key, &value, 1, &reply) == (evicted != 0 ? CEFRODIL_OK : CEFRODIL_ABSENT));
        MUST(value == (evicted != 0 ? evicted : key) && cefrodil_get(handle, evicted, &value, 1, NULL) == CEFRODIL_ABSENT);
        break;
    default:
        MUST(cefrodil_put(handle, key, &value, 1, &reply) == CEFRODIL_OK && (reply.put == CEFRODIL_PUT_RENEWED) == (row->call == RENEW));
        MUST((reply.put == CEFRODIL_PUT_EVICTED) == (evicted != 0));
    }
    MUST(reply.evicted == evicted);
    MUST(!holds || cefrodil_release(handle) == CEFRODIL_OK);
}

/* Plays the rows from one on, in each shard. */
static void play_from(const struct row *rows, size_t first, size_t count, uint32_t shards) {
    for (size_t step = first; step < count; step++) {
        for (uint64_t shard = 0; shard < shards; shard++) {
            play(&rows[step], step, shard);
        }
    }
}

static void opens(uint32_t shards) {
    MUST(cefrodil_open(&shape, shards, 1, handles, HANDLES - 1) == CEFRODIL_OK);
    MUST(cefrodil_more(&handles[0], &handles[HANDLES - 1], 1) == CEFRODIL_OK);
}

static void closes(void) {
    for (size_t i = 0; i < HANDLES; i++) {
        MUST(cefrodil_close(&handles[i]) == CEFRODIL_OK);
    }
}

static int by_key(const void *one, const void *other) {
    const uint64_t first = *(const uint64_t *)one, second = *(const uint64_t *)other;
    return (first > second) - (first < second);
}

/* A larger table gets the entries in the order of their keys, which is that of the first rows. */
static void reshapes(uint32_t shards) {
    uint64_t entries[2 * FIRST * ENTRY], count = 0;
    cefrodil_status statuses[2 * FIRST];
    cefrodil_shape larger = shape;
    larger.buckets *= 2;
    MUST(cefrodil_entries(&handles[1], entries, 2 * FIRST * ENTRY, &count) == CEFRODIL_OK && count == FIRST * shards);
    closes();
    qsort(entries, count, ENTRY * sizeof *entries, by_key);
    MUST(cefrodil_open_with(&larger, shards, 1, entries, count * ENTRY, statuses, count, handles, HANDLES) == CEFRODIL_OK);
    for (size_t i = 0; i < count; i++) {
        MUST(statuses[i] == CEFRODIL_OK);
    }
}

/* In a cache from its opening on, and in one that is reshaped once it is full. */
static void plays(uint32_t policy, uint32_t items, const struct row *rows, size_t count) {
    shape.policy = policy, shape.items = items;
    for (uint32_t shards = 1; shards <= 2; shards++) {
        opens(shards);
        play_from(rows, 0, count, shards);
        closes();
        if (items == FIRST) {
            opens(shards);
            play_from(rows, 0, FIRST, shards);
            reshapes(shards);
            play_from(rows, FIRST, count, shards);
            closes();
        }
    }
}

#define PLAYS(policy, items, rows) plays(CEFRODIL_POLICY_##policy, items, rows, sizeof rows / sizeof *rows)

int main(void) {
    PLAYS(SCAN_RESISTANT, FIRST, scan);
    PLAYS(SCAN_RESISTANT, FIRST, again);
    PLAYS(SCAN_RESISTANT, FIRST, all_used);
    PLAYS(SCAN_RESISTANT, 1, one_item);
    PLAYS(SCAN_RESISTANT, FIRST, emptied);
    PLAYS(SCAN_RESISTANT, FIRST, between_puts);
    PLAYS(SCAN_RESISTANT, 1, one_emptied);
    PLAYS(CLOCK, FIRST, scan_by_clock);
    PLAYS(CLOCK, FIRST, again_by_clock);
    PLAYS(CLOCK, 1, one_item);
    PLAYS(CLOCK, FIRST, emptied_by_clock);
    PLAYS(CLOCK, FIRST, between_puts);
    PLAYS(CLOCK, 1, one_emptied);
    return outcome("policies");
}
