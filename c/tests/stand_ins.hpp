// Functions that stand in for some calls of the index, for waits.cpp and overtaken.cpp: they are disturbed, or another thread seems to be first. Include it
// before the headers of the maps.
#ifndef STAND_INS_HPP
#define STAND_INS_HPP

#include "cefrodil.h"
#include "must.h"

// How many calls of the index are disturbed from now on, and how many calls were made.
inline uint32_t disturbed = 0, made = 0;

static inline bool is_disturbed() {
    made++;
    return disturbed != 0 && disturbed-- != 0;
}
static inline cefrodil_status some_get_or_turn(cefrodil_handle *pass, uint64_t key, uint64_t *value, size_t words, cefrodil_reply *reply) {
    *reply = cefrodil_reply{};
    return is_disturbed() ? cefrodil_status(CEFRODIL_BUSY) : cefrodil_get_or_turn_of_width(pass, key, value, words, reply);
}
static inline cefrodil_status some_put(cefrodil_handle *pass, uint64_t key, const uint64_t *value, size_t words, cefrodil_reply *reply) {
    *reply = cefrodil_reply{};
    return is_disturbed() ? cefrodil_status(CEFRODIL_HELD) : cefrodil_put_of_width(pass, key, value, words, reply);
}
// Before so many removals on a condition the key is put anew, as by another thread. Before so many puts on a condition the entry is.
inline uint32_t overtaken = 0, overtaken_puts = 0;
// Before so many puts of absent keys the key is put with the value 99, and before so many removals the key is removed, as by another thread. It is
// also removed before so many puts and removals on a condition.
inline uint32_t put_before = 0, removed_before = 0, removed_before_condition = 0;

static inline void remove_before_condition(cefrodil_handle *pass, uint64_t key, cefrodil_reply *reply) {
    if (removed_before_condition != 0) {
        removed_before_condition--;
        MUST(cefrodil_remove(pass, key, reply) == CEFRODIL_OK);
    }
}

static inline cefrodil_status some_take_if(cefrodil_handle *pass, uint64_t key, uint64_t since, uint64_t *old, size_t words, cefrodil_reply *reply) {
    if (overtaken != 0) {
        overtaken--;
        MUST(cefrodil_get_or_turn_of_width(pass, key, old, words, reply) == CEFRODIL_OK);
        MUST(cefrodil_put_of_width(pass, key, old, words, reply) == CEFRODIL_OK);
    }
    remove_before_condition(pass, key, reply);
    return cefrodil_take_if(pass, key, since, old, words, reply);
}
static inline cefrodil_status some_put_if(cefrodil_handle *pass, uint64_t key, uint64_t since, const uint64_t *value, size_t words, cefrodil_reply *reply) {
    if (overtaken_puts != 0) {
        overtaken_puts--;
        uint64_t same[2];
        MUST(words == 2 && cefrodil_get_or_turn_of_width(pass, key, same, 2, reply) == CEFRODIL_OK);
        MUST(cefrodil_put_of_width(pass, key, same, 2, reply) == CEFRODIL_OK);
    }
    remove_before_condition(pass, key, reply);
    return cefrodil_put_if(pass, key, since, value, words, reply);
}
static inline cefrodil_status some_put_if_absent(cefrodil_handle *pass, uint64_t key, const uint64_t *value, size_t words, cefrodil_reply *reply) {
    if (put_before != 0) {
        put_before--;
        const uint64_t other[2] = {value[0], 99};
        MUST(words == 2 && cefrodil_put_of_width(pass, key, other, 2, reply) == CEFRODIL_OK);
    }
    return cefrodil_put_if_absent(pass, key, value, words, reply);
}
// So many removals are held.
inline uint32_t held_removals = 0;

static inline cefrodil_status some_remove(cefrodil_handle *pass, uint64_t key, cefrodil_reply *reply) {
    if (removed_before != 0) {
        removed_before--;
        MUST(cefrodil_remove(pass, key, reply) == CEFRODIL_OK);
    }
    *reply = cefrodil_reply{};
    if (held_removals != 0) {
        held_removals--;
        return CEFRODIL_HELD;
    }
    return is_disturbed() ? cefrodil_status(CEFRODIL_HELD) : cefrodil_remove(pass, key, reply);
}
static inline cefrodil_status some_entries(cefrodil_handle *pass, uint64_t *entries, size_t words, uint64_t *count) {
    return is_disturbed() ? cefrodil_status(CEFRODIL_HELD) : cefrodil_entries_or_none(pass, entries, words, count);
}
// Each key counts as a call.
static inline cefrodil_status some_get_many(cefrodil_handle *pass, const uint64_t *keys, size_t count, uint64_t *values, size_t words,
                                     cefrodil_answer *answers, size_t answer_count) {
    const cefrodil_status status = cefrodil_get_many_or_none(pass, keys, count, values, words, answers, answer_count);
    for (size_t i = 0; i < count; i++) {
        answers[i].status = is_disturbed() ? uint32_t(CEFRODIL_BUSY) : answers[i].status;
    }
    return status;
}
#define cefrodil_get_or_turn_of_width some_get_or_turn
#define cefrodil_put_of_width some_put
#define cefrodil_get_many_or_none some_get_many
#define cefrodil_entries_or_none some_entries
#define cefrodil_remove some_remove
#define cefrodil_take_if some_take_if
#define cefrodil_put_if some_put_if
#define cefrodil_put_if_absent some_put_if_absent
#include "cefrodil_map.hpp"

// A call after which so many calls of the index are disturbed.
static inline void disturb(uint32_t calls) {
    made = 0;
    disturbed = calls;
}

#endif
