/* Each call of a handle, with arguments: by what it can be refused, and whether it is. */
#ifndef EACH_CALL_H
#define EACH_CALL_H

#include "cefrodil.h"
#include "must.h"
#include <string.h>

/* .ci/calls: calls */
#define EACH_CALL(row) \
    row(more, NOTHING, (handle, told.handles, 1)) \
    row(get, WIDTH | REPLY, (handle, key, told.value, words, &told.reply)) \
    row(get_many, WIDTH, (handle, keys, 1, told.values, words, told.answers, 1)) \
    row(prefetch, NOTHING, (handle, key)) \
    row(get_or_turn, WIDTH | REPLY, (handle, key, told.value, words, &told.reply)) \
    row(peek, WIDTH | TURN | REPLY, (handle, key, told.value, words, &told.reply)) \
    row(put, WIDTH | TURN | LIMIT | REPLY, (handle, key, value, words, &told.reply)) \
    row(put_if, WIDTH | TURN | LIMIT | REPLY, (handle, key, since, value, words, &told.reply)) \
    row(put_if_absent, WIDTH | TURN | LIMIT | REPLY, (handle, key, value, words, &told.reply)) \
    row(put_bounded, WIDTH | TURN | LIMIT | REPLY, (handle, key, 1, value, words, &told.reply)) \
    row(put_if_absent_bounded, WIDTH | TURN | LIMIT | REPLY, (handle, key, 1, value, words, &told.reply)) \
    row(remove, TURN | LIMIT | REPLY, (handle, key, &told.reply)) \
    row(put_many, WIDTH, (handle, keys, 1, values, words, told.put_answers, 1)) \
    row(put_within, WIDTH | TURN | LIMIT | REPLY, (handle, tries, key, value, words, &told.reply)) \
    row(swap, WIDTH | TURN | LIMIT | REPLY, (handle, key, value, words, told.old, words, &told.reply)) \
    row(swap_if, WIDTH | TURN | LIMIT | REPLY, (handle, key, since, value, words, told.old, words, &told.reply)) \
    row(swap_if_absent, WIDTH | TURN | LIMIT | REPLY, (handle, key, value, words, told.old, words, &told.reply)) \
    row(swap_bounded, WIDTH | TURN | LIMIT | REPLY, (handle, key, 1, value, words, told.old, words, &told.reply)) \
    row(swap_if_absent_bounded, WIDTH | TURN | LIMIT | REPLY, (handle, key, 1, value, words, told.old, words, &told.reply)) \
    row(take, WIDTH | TURN | LIMIT | REPLY, (handle, key, told.old, words, &told.reply)) \
    row(take_if, WIDTH | TURN | LIMIT | REPLY, (handle, key, since, told.old, words, &told.reply)) \
    row(evict, WIDTH | TURN | LIMIT | REPLY, (handle, key, told.old, words, &told.reply)) \
    row(entry_at, WIDTH | TURN | REPLY, (handle, key, 0, told.value, words, &told.reply)) \
    row(hold, TURN, (handle)) \
    row(release, NOTHING, (handle)) \
    row(moment, TURN, (handle, &told.moment)) \
    row(len, TURN, (handle, &told.len)) \
    row(capacity, NOTHING, (handle, &told.capacity)) \
    row(entries, TURN, (handle, told.entries, ROOM, &told.count)) \
    row(stamped_entries, TURN, (handle, told.entries, ROOM, &told.count)) \
    row(close, NOTHING, (handle))
/* .ci/calls: end */

enum { WORDS = 2, MOST = 9, ROOM = 64 };

/* What the calls write. */
static struct {
    uint64_t value[MOST], old[MOST], values[MOST], entries[ROOM], moment, len, capacity, count;
    cefrodil_answer answers[1];
    cefrodil_put_answer put_answers[1];
    cefrodil_handle handles[1];
    cefrodil_reply reply;
} told;

/* What they read. */
static const uint64_t key = 7, since = 1, keys[1] = {7}, value[MOST] = {1, 2, 3, 4, 5, 6, 7, 8, 9};
static const uint64_t *const values = value;
static const uint32_t tries = 3;

/* What a call has: a width, the need of a turn, the limit of its writes, a reply. */
enum { NOTHING = 0, WIDTH = 1, TURN = 2, LIMIT = 4, REPLY = 8 };

struct call {
    const char *name;
    cefrodil_status (*make)(cefrodil_handle *handle, size_t words);
    int has;
};
#define FUNCTION(call, has, arguments) \
    static cefrodil_status call_##call(cefrodil_handle *handle, size_t words) { \
        (void)words; \
        return cefrodil_##call arguments; \
    }
#define ROW(call, has, arguments) {#call, call_##call, has},
EACH_CALL(FUNCTION)
static const struct call calls[] = {EACH_CALL(ROW)};
enum { CALLS = sizeof calls / sizeof calls[0] };

/* The call returns this status, and writes nothing but the reply: that is empty. */
static void is_refused(const struct call *call, cefrodil_handle *handle, size_t words, cefrodil_status status) {
    const cefrodil_reply empty = {0, 0, 0, 0, CEFRODIL_PUT_NOTHING};
    memset(&told, 9, sizeof told);
    memset(told.handles, 0, sizeof told.handles);
    unsigned char before[sizeof told], after[sizeof told];
    memcpy(before, &told, sizeof told);
    const cefrodil_status seen = call->make(handle, words);
    if (seen != status) {
        printf("cefrodil_%s: %s\n", call->name, cefrodil_text(seen));
    }
    MUST(seen == status);
    if ((call->has & REPLY) != 0) {
        MUST(memcmp(&told.reply, &empty, sizeof empty) == 0);
        memset(&told.reply, 9, sizeof told.reply);
    }
    memcpy(after, &told, sizeof told);
    MUST(memcmp(before, after, sizeof told) == 0);
}

#endif
