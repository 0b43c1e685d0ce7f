/* Handles that a forked child has from its parent. The parent's other threads are not in the child. So its copy of a cache may have stopped in the
 * middle of a change, its pages may be of different moments, and a turn may be held for ever. By such a handle each call does nothing and returns
 * CEFRODIL_CLOSED. To close it only empties it: the copy is kept until the child ends. Handles that the child has opened are its own.
 *
 * c/build gives the cache's own calls other names: cefrodil_get is proved_cefrodil_get, and so on. */
#define CEFRODIL_NO_MACROS
#include "cefrodil.h"

/* memory.c has others in their place. The toolchain's own memory doesn't know of processes: over it a child calls as its parent does. */
bool is_of_this_process(const void *at) __attribute__((weak));
bool is_of_this_process(const void *at) { return at != NULL; }
void keep_for_parent(void *at) __attribute__((weak));
void keep_for_parent(void *at) { (void)at; }
extern bool has_been_forked __attribute__((weak, visibility("hidden")));
bool has_been_forked = false;

/* A handle that is not open. A call by it writes nothing there, so threads may share it. */
static cefrodil_handle closed = CEFRODIL_EMPTY;

/* In a forked child: the handle, or one that is not open if the parent opened it. */
static cefrodil_handle *own(cefrodil_handle *handle) { return handle->live_ && !is_of_this_process(handle->at_) ? &closed : handle; }

cefrodil_status proved_cefrodil_close(cefrodil_handle *handle);

cefrodil_status cefrodil_close(cefrodil_handle *handle) {
    if (!has_been_forked || own(handle) == handle) {
        return proved_cefrodil_close(handle);
    }
    keep_for_parent(handle->at_);
    *handle = cefrodil_empty();
    return CEFRODIL_CLOSED;
}

/* A call with these parameters, of which the first is the handle. What a process does that was never forked is short: it is on the way of lookups. */
#define OF_PROCESS(call, parameters, passed) \
    cefrodil_status proved_cefrodil_##call parameters; \
    static __attribute__((noinline, cold)) cefrodil_status call##_in_child parameters { \
        handle = own(handle); \
        return proved_cefrodil_##call passed; \
    } \
    cefrodil_status cefrodil_##call parameters { \
        return __builtin_expect(has_been_forked, false) ? call##_in_child passed : proved_cefrodil_##call passed; \
    }

/* .ci/calls: calls */
OF_PROCESS(more, (cefrodil_handle *handle, cefrodil_handle *handles, size_t count), (handle, handles, count))
OF_PROCESS(get, (cefrodil_handle *handle, uint64_t key, uint64_t *value, size_t words, cefrodil_reply *reply), (handle, key, value, words, reply))
OF_PROCESS(get_1, (cefrodil_handle *handle, uint64_t key, uint64_t *value, cefrodil_reply *reply), (handle, key, value, reply))
OF_PROCESS(get_2, (cefrodil_handle *handle, uint64_t key, uint64_t *value, cefrodil_reply *reply), (handle, key, value, reply))
OF_PROCESS(get_3, (cefrodil_handle *handle, uint64_t key, uint64_t *value, cefrodil_reply *reply), (handle, key, value, reply))
OF_PROCESS(get_4, (cefrodil_handle *handle, uint64_t key, uint64_t *value, cefrodil_reply *reply), (handle, key, value, reply))
OF_PROCESS(get_5, (cefrodil_handle *handle, uint64_t key, uint64_t *value, cefrodil_reply *reply), (handle, key, value, reply))
OF_PROCESS(get_6, (cefrodil_handle *handle, uint64_t key, uint64_t *value, cefrodil_reply *reply), (handle, key, value, reply))
OF_PROCESS(get_7, (cefrodil_handle *handle, uint64_t key, uint64_t *value, cefrodil_reply *reply), (handle, key, value, reply))
OF_PROCESS(get_8, (cefrodil_handle *handle, uint64_t key, uint64_t *value, cefrodil_reply *reply), (handle, key, value, reply))
OF_PROCESS(get_many, (cefrodil_handle *handle, const uint64_t *keys, size_t key_count, uint64_t *values, size_t value_words,
                      cefrodil_answer *answers, size_t answer_count),
           (handle, keys, key_count, values, value_words, answers, answer_count))
OF_PROCESS(prefetch, (cefrodil_handle *handle, uint64_t key), (handle, key))
OF_PROCESS(get_or_turn, (cefrodil_handle *handle, uint64_t key, uint64_t *value, size_t words, cefrodil_reply *reply),
           (handle, key, value, words, reply))
OF_PROCESS(get_or_turn_1, (cefrodil_handle *handle, uint64_t key, uint64_t *value, cefrodil_reply *reply), (handle, key, value, reply))
OF_PROCESS(get_or_turn_2, (cefrodil_handle *handle, uint64_t key, uint64_t *value, cefrodil_reply *reply), (handle, key, value, reply))
OF_PROCESS(get_or_turn_3, (cefrodil_handle *handle, uint64_t key, uint64_t *value, cefrodil_reply *reply), (handle, key, value, reply))
OF_PROCESS(get_or_turn_4, (cefrodil_handle *handle, uint64_t key, uint64_t *value, cefrodil_reply *reply), (handle, key, value, reply))
OF_PROCESS(get_or_turn_5, (cefrodil_handle *handle, uint64_t key, uint64_t *value, cefrodil_reply *reply), (handle, key, value, reply))
OF_PROCESS(get_or_turn_6, (cefrodil_handle *handle, uint64_t key, uint64_t *value, cefrodil_reply *reply), (handle, key, value, reply))
OF_PROCESS(get_or_turn_7, (cefrodil_handle *handle, uint64_t key, uint64_t *value, cefrodil_reply *reply), (handle, key, value, reply))
OF_PROCESS(get_or_turn_8, (cefrodil_handle *handle, uint64_t key, uint64_t *value, cefrodil_reply *reply), (handle, key, value, reply))
OF_PROCESS(peek, (cefrodil_handle *handle, uint64_t key, uint64_t *value, size_t words, cefrodil_reply *reply), (handle, key, value, words, reply))
OF_PROCESS(put, (cefrodil_handle *handle, uint64_t key, const uint64_t *value, size_t words, cefrodil_reply *reply),
           (handle, key, value, words, reply))
OF_PROCESS(put_1, (cefrodil_handle *handle, uint64_t key, const uint64_t *value, cefrodil_reply *reply), (handle, key, value, reply))
OF_PROCESS(put_2, (cefrodil_handle *handle, uint64_t key, const uint64_t *value, cefrodil_reply *reply), (handle, key, value, reply))
OF_PROCESS(put_3, (cefrodil_handle *handle, uint64_t key, const uint64_t *value, cefrodil_reply *reply), (handle, key, value, reply))
OF_PROCESS(put_4, (cefrodil_handle *handle, uint64_t key, const uint64_t *value, cefrodil_reply *reply), (handle, key, value, reply))
OF_PROCESS(put_5, (cefrodil_handle *handle, uint64_t key, const uint64_t *value, cefrodil_reply *reply), (handle, key, value, reply))
OF_PROCESS(put_6, (cefrodil_handle *handle, uint64_t key, const uint64_t *value, cefrodil_reply *reply), (handle, key, value, reply))
OF_PROCESS(put_7, (cefrodil_handle *handle, uint64_t key, const uint64_t *value, cefrodil_reply *reply), (handle, key, value, reply))
OF_PROCESS(put_8, (cefrodil_handle *handle, uint64_t key, const uint64_t *value, cefrodil_reply *reply), (handle, key, value, reply))
OF_PROCESS(put_if, (cefrodil_handle *handle, uint64_t key, uint64_t since, const uint64_t *value, size_t words, cefrodil_reply *reply),
           (handle, key, since, value, words, reply))
OF_PROCESS(put_if_absent, (cefrodil_handle *handle, uint64_t key, const uint64_t *value, size_t words, cefrodil_reply *reply),
           (handle, key, value, words, reply))
OF_PROCESS(put_bounded, (cefrodil_handle *handle, uint64_t key, uint32_t most, const uint64_t *value, size_t words, cefrodil_reply *reply),
           (handle, key, most, value, words, reply))
OF_PROCESS(put_if_absent_bounded, (cefrodil_handle *handle, uint64_t key, uint32_t most, const uint64_t *value, size_t words,
                                   cefrodil_reply *reply),
           (handle, key, most, value, words, reply))
OF_PROCESS(remove, (cefrodil_handle *handle, uint64_t key, cefrodil_reply *reply), (handle, key, reply))
OF_PROCESS(put_many, (cefrodil_handle *handle, const uint64_t *keys, size_t key_count, const uint64_t *values, size_t value_words,
                      cefrodil_put_answer *answers, size_t answer_count),
           (handle, keys, key_count, values, value_words, answers, answer_count))
OF_PROCESS(put_within, (cefrodil_handle *handle, uint32_t tries, uint64_t key, const uint64_t *value, size_t words, cefrodil_reply *reply),
           (handle, tries, key, value, words, reply))
OF_PROCESS(swap, (cefrodil_handle *handle, uint64_t key, const uint64_t *value, size_t words, uint64_t *old, size_t old_words,
                  cefrodil_reply *reply),
           (handle, key, value, words, old, old_words, reply))
OF_PROCESS(swap_if, (cefrodil_handle *handle, uint64_t key, uint64_t since, const uint64_t *value, size_t words, uint64_t *old, size_t old_words,
                     cefrodil_reply *reply),
           (handle, key, since, value, words, old, old_words, reply))
OF_PROCESS(swap_if_absent, (cefrodil_handle *handle, uint64_t key, const uint64_t *value, size_t words, uint64_t *old, size_t old_words,
                            cefrodil_reply *reply),
           (handle, key, value, words, old, old_words, reply))
OF_PROCESS(swap_bounded, (cefrodil_handle *handle, uint64_t key, uint32_t most, const uint64_t *value, size_t words, uint64_t *old,
                          size_t old_words, cefrodil_reply *reply),
           (handle, key, most, value, words, old, old_words, reply))
OF_PROCESS(swap_if_absent_bounded, (cefrodil_handle *handle, uint64_t key, uint32_t most, const uint64_t *value, size_t words, uint64_t *old,
                                    size_t old_words, cefrodil_reply *reply),
           (handle, key, most, value, words, old, old_words, reply))
OF_PROCESS(take, (cefrodil_handle *handle, uint64_t key, uint64_t *old, size_t old_words, cefrodil_reply *reply),
           (handle, key, old, old_words, reply))
OF_PROCESS(take_if, (cefrodil_handle *handle, uint64_t key, uint64_t since, uint64_t *old, size_t old_words, cefrodil_reply *reply),
           (handle, key, since, old, old_words, reply))
OF_PROCESS(evict, (cefrodil_handle *handle, uint64_t near, uint64_t *old, size_t old_words, cefrodil_reply *reply),
           (handle, near, old, old_words, reply))
OF_PROCESS(entry_at, (cefrodil_handle *handle, uint64_t near, uint32_t item, uint64_t *value, size_t words, cefrodil_reply *reply),
           (handle, near, item, value, words, reply))
OF_PROCESS(hold, (cefrodil_handle *handle), (handle))
OF_PROCESS(release, (cefrodil_handle *handle), (handle))
OF_PROCESS(moment, (cefrodil_handle *handle, uint64_t *moment), (handle, moment))
OF_PROCESS(len, (cefrodil_handle *handle, uint64_t *len), (handle, len))
OF_PROCESS(capacity, (cefrodil_handle *handle, uint64_t *capacity), (handle, capacity))
OF_PROCESS(entries, (cefrodil_handle *handle, uint64_t *entries, size_t entry_words, uint64_t *count), (handle, entries, entry_words, count))
OF_PROCESS(stamped_entries, (cefrodil_handle *handle, uint64_t *entries, size_t entry_words, uint64_t *count),
           (handle, entries, entry_words, count))
/* .ci/calls: end */
