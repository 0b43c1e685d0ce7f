// What each write returns in C++: the key's token, what was evicted and what gave way. A guard and a handle make the same calls.
#include "cefrodil.hpp"
#include "must.h"

using namespace cefrodil;

// The calls of a guard, and those of a handle, by the same names.
struct ByWriting {
    Writing<1> &writing;
    Written put(uint64_t key, uint64_t value) { return writing.put(key, {value}); }
    Written put_if_absent(uint64_t key, uint64_t value) { return writing.put_if_absent(key, {value}); }
    Written remove(uint64_t key) { return writing.remove(key); }
    Swapped<1> swap(uint64_t key, uint64_t value) { return writing.swap(key, {value}); }
    Swapped<1> swap_if(uint64_t key, uint64_t since, uint64_t value) { return writing.swap_if(key, since, {value}); }
    Swapped<1> swap_if_absent(uint64_t key, uint64_t value) { return writing.swap_if_absent(key, {value}); }
    Swapped<1> swap_bounded(uint64_t key, uint64_t value) { return writing.swap_bounded(key, 1, {value}); }
    Swapped<1> swap_if_absent_bounded(uint64_t key, uint64_t value) { return writing.swap_if_absent_bounded(key, 1, {value}); }
    Written put_bounded(uint64_t key, uint64_t value) { return writing.put_bounded(key, 1, {value}); }
    Written put_if_absent_bounded(uint64_t key, uint64_t value) { return writing.put_if_absent_bounded(key, 1, {value}); }
    Swapped<1> take(uint64_t key) { return writing.take(key); }
    Swapped<1> take_if(uint64_t key, uint64_t since) { return writing.take_if(key, since); }
    Swapped<1> evict() { return writing.evict(); }
    Answer<1> peek(uint64_t key) { return writing.peek(key); }
    Status put_many(const uint64_t *keys, const std::array<uint64_t, 1> *values, cefrodil_put_answer *answers) {
        return writing.put_many(keys, 3, values, answers);
    }
};
struct ByHandle {
    Handle<1> &handle;
    Written put(uint64_t key, uint64_t value) { return handle.try_put(key, {value}); }
    Written put_if_absent(uint64_t key, uint64_t value) { return handle.try_put_if_absent(key, {value}); }
    Written remove(uint64_t key) { return handle.try_remove(key); }
    Swapped<1> swap(uint64_t key, uint64_t value) { return handle.try_swap(key, {value}); }
    Swapped<1> swap_if(uint64_t key, uint64_t since, uint64_t value) { return handle.try_swap_if(key, since, {value}); }
    Swapped<1> swap_if_absent(uint64_t key, uint64_t value) { return handle.try_swap_if_absent(key, {value}); }
    Swapped<1> swap_bounded(uint64_t key, uint64_t value) { return handle.try_swap_bounded(key, 1, {value}); }
    Swapped<1> swap_if_absent_bounded(uint64_t key, uint64_t value) { return handle.try_swap_if_absent_bounded(key, 1, {value}); }
    Written put_bounded(uint64_t key, uint64_t value) { return handle.try_put_bounded(key, 1, {value}); }
    Written put_if_absent_bounded(uint64_t key, uint64_t value) { return handle.try_put_if_absent_bounded(key, 1, {value}); }
    Swapped<1> take(uint64_t key) { return handle.try_take(key); }
    Swapped<1> take_if(uint64_t key, uint64_t since) { return handle.try_take_if(key, since); }
    Swapped<1> evict() { return handle.try_evict(); }
    Answer<1> peek(uint64_t key) { return handle.try_peek(key); }
    Status put_many(const uint64_t *keys, const std::array<uint64_t, 1> *values, cefrodil_put_answer *answers) {
        return handle.try_put_many(keys, 3, values, answers);
    }
};

// A key that is there has its token in `since`, and its earlier entry gives way to the next put.
template <class Calls> static void a_key_that_is_there(Calls calls) {
    MUST(calls.put(1, 10).status == Status::ok);
    const Written there = calls.put_if_absent(1, 11);
    MUST(there.status == Status::present && there.since == 1 && there.at == 0 && !there.renewed && !there.evicted);
    const Swapped<1> stays = calls.swap_if_absent(1, 11);
    MUST(stays.status == Status::present && stays.since == 1 && stays.old_since == 0 && !stays.old);
    const Swapped<1> renewed = calls.swap(1, 12);
    MUST(renewed.status == Status::ok && renewed.old && (*renewed.old)[0] == 10 && renewed.old_since == 1);
    MUST(renewed.since == 0 && renewed.at == 2 && !renewed.evicted);
    const Swapped<1> changed = calls.swap_if(1, 1, 13);
    MUST(changed.status == Status::changed && changed.since == 2 && changed.old_since == 0 && !changed.old);
    const Swapped<1> replaced = calls.swap_if(1, 2, 13);
    MUST(replaced.status == Status::ok && replaced.old && (*replaced.old)[0] == 12 && replaced.old_since == 2 && replaced.at == 3);
}

// What is taken is returned once. A key that is new and evicts none has nothing that gives way.
template <class Calls> static void a_key_that_is_taken(Calls calls) {
    MUST(calls.swap(2, 20).status == Status::ok);
    const Swapped<1> other = calls.take_if(2, 3), taken = calls.take_if(2, 4), absent = calls.take_if(2, 4), stored = calls.swap(2, 21);
    MUST(other.status == Status::changed && other.since == 4 && !other.old);
    MUST(taken.status == Status::ok && taken.old && (*taken.old)[0] == 20 && taken.old_since == 4 && taken.at == 5);
    MUST(absent.status == Status::absent && !absent.old && absent.at == 5);
    MUST(stored.status == Status::ok && !stored.old && !stored.evicted && stored.old_since == 0 && stored.at == 6);
}

// The table has two keys and no room for a third. An eviction is a change of its own.
template <class Calls> static void a_key_that_is_evicted(Calls calls) {
    const Swapped<1> swapped = calls.swap(3, 30);
    MUST(swapped.evicted && (*swapped.evicted == 1 || *swapped.evicted == 2));
    const bool first = *swapped.evicted == 1;
    MUST(swapped.old && (*swapped.old)[0] == (first ? 13 : 21) && swapped.old_since == (first ? 3 : 6) && swapped.at == 8);
    const Written put = calls.put(4, 40);
    MUST(put.status == Status::ok && put.evicted && !put.renewed && put.at == 10);
    MUST(calls.remove(4).status == Status::ok && calls.remove(4).status == Status::absent);
    const Written fresh = calls.put_if_absent(5, 50);
    MUST(fresh.status == Status::ok && !fresh.renewed && !fresh.evicted && fresh.at == 12);
}

// Three puts in one call: over a key that is there, over another, and of a new key that evicts one. Each answer is counted.
template <class Calls> static void keys_of_one_call(Calls calls, const Meter &meter) {
    const Answer<1> found = calls.peek(5), absent = calls.peek(4);
    MUST(found.status == Status::ok && found.value && (*found.value)[0] == 50 && found.at == 12 && found.since == 12);
    MUST(absent.status == Status::absent && !absent.value && absent.at == 12 && absent.since == 0);
    const uint64_t other = calls.peek(1).value ? 1 : calls.peek(2).value ? 2 : 3, keys[3] = {5, other, 6}, evictions = meter.counts().evictions;
    const std::array<uint64_t, 1> values[3] = {{{51}}, {{31}}, {{60}}};
    cefrodil_put_answer answers[3];
    MUST(calls.put_many(keys, values, answers) == Status::ok);
    MUST(answers[0].status == CEFRODIL_OK && answers[0].reply.put == CEFRODIL_PUT_RENEWED && answers[0].reply.at == 13);
    MUST(answers[1].reply.put == CEFRODIL_PUT_RENEWED && answers[1].reply.at == 14);
    MUST(answers[2].reply.put == CEFRODIL_PUT_EVICTED && answers[2].reply.at == 16 && calls.peek(answers[2].reply.evicted).status == Status::absent);
    MUST(calls.peek(6).value && meter.counts().evictions == evictions + 1);
}

// Two of the three keys that were put last are there, and give way without a put.
template <class Calls> static void keys_that_give_way(Calls calls) {
    const Swapped<1> first = calls.evict(), second = calls.evict(), none = calls.evict();
    for (const Swapped<1> &told : {first, second}) {
        MUST(told.status == Status::ok && told.evicted && told.old && told.since == 0 && calls.peek(*told.evicted).status == Status::absent);
        const uint64_t key = told.evicted.value_or(0), value = key == 5 ? 51 : key == 6 ? 60 : 31, since = key == 5 ? 13 : key == 6 ? 16 : 14;
        MUST(told.old && (*told.old)[0] == value && told.old_since == since);
    }
    MUST(first.at == 17 && second.at == 18 && first.evicted != second.evicted);
    MUST(none.status == Status::absent && none.at == 18 && none.old_since == 0 && none.since == 0 && !none.old && !none.evicted);
}

// In a shard that is to hold one key, another one leaves for a new one.
template <class Calls> static void a_key_that_leaves_for_the_bound(Calls calls, const Meter &meter) {
    const uint64_t evictions = meter.counts().evictions;
    const Swapped<1> stored = calls.swap_bounded(1, 10), renewed = calls.swap_bounded(1, 11), stays = calls.swap_if_absent_bounded(1, 12);
    MUST(stored.status == Status::ok && !stored.old && !stored.evicted && stored.at == 1 && stored.old_since == 0);
    MUST(renewed.status == Status::ok && renewed.old && (*renewed.old)[0] == 10 && !renewed.evicted && renewed.at == 2 && renewed.old_since == 1);
    MUST(stays.status == Status::present && !stays.old && !stays.evicted && stays.since == 2);
    const Swapped<1> first = calls.swap_bounded(2, 20), second = calls.swap_if_absent_bounded(3, 30);
    MUST(first.status == Status::ok && first.evicted == uint64_t(1) && first.old && (*first.old)[0] == 11 && first.old_since == 2 && first.at == 4);
    MUST(second.status == Status::ok && second.evicted == uint64_t(2) && second.old && (*second.old)[0] == 20 && second.old_since == 4 && second.at == 6);
    MUST(meter.counts().evictions == evictions + 2 && calls.peek(3).value && !calls.peek(2).value);
    const Written put = calls.put_bounded(3, 31), there = calls.put_if_absent_bounded(3, 32), third = calls.put_bounded(4, 40), last = calls.put_if_absent_bounded(5, 50);
    MUST(put.status == Status::ok && put.renewed && !put.evicted && there.status == Status::present && there.since == 7 && !there.evicted);
    MUST(third.status == Status::ok && third.evicted == uint64_t(3) && third.at == 9 && last.status == Status::ok && last.evicted == uint64_t(4) && last.at == 11);
}

// Both buckets of nine keys are the same two, and no key may move. The first key lies elsewhere. If it has left when the put finds no place, that is said.
static void a_put_that_fails() {
    std::vector<Handle<1>> handles;
    const cefrodil_shape shape{uint64_t(1) << 62, 1024, 16, 1, 0, 2, CEFRODIL_MIX_NONE, CEFRODIL_POLICY_CLOCK};
    MUST(open(shape, 1, 1, handles) == Status::ok && handles[0].try_put(1, {10}).status == Status::ok);
    for (uint64_t key = 1; key < 9; key++) {
        MUST(handles[0].try_put(1024 * key, {key}).status == Status::ok);
    }
    const Swapped<1> told = handles[0].try_swap_bounded(uint64_t(1024) * 9, 1, {9});
    MUST(told.status == Status::no_path && told.evicted == uint64_t(1) && told.old && (*told.old)[0] == 10 && told.old_since == 1);
    uint64_t len = 0;
    MUST(handles[0].try_len(len) == Status::ok && len == 8);
}

template <class Calls> static void writes(Calls calls, const Meter &meter) {
    a_key_that_is_there(calls);
    a_key_that_is_taken(calls);
    a_key_that_is_evicted(calls);
    keys_of_one_call(calls, meter);
    keys_that_give_way(calls);
}

// A handle that takes another's place closes its own cache. One that takes its own place stays open.
static void moves(const cefrodil_shape &shape, Handle<1> &handle) {
    std::vector<Handle<1>> others;
    std::vector<Status> statuses;
    MUST(open_with(shape, 1, 1, {1, 1, 2, 2, 3, 3}, others, statuses) == Status::ok);
    MUST(statuses.size() == 3 && statuses[0] == Status::ok && statuses[1] == Status::ok && statuses[2] == Status::no_item);
    uint64_t len = 9;
    handle = std::move(others[0]);
    MUST(!others[0].is_open() && handle.try_len(len) == Status::ok && len == 2);
    Handle<1> &same = handle;
    handle = std::move(same);
    MUST(handle.is_open() && handle.try_len(len) == Status::ok && len == 2);
}

int main() {
    cefrodil_shape shape = *shape_for_items(100);
    shape.items = 2;
    std::vector<Handle<1>> handles, others;
    for (shape.policy = 0; shape.policy < 2; shape.policy++) {
        Writing<1> writing;
        MUST(open(shape, 1, 1, handles) == Status::ok && open(shape, 1, 1, others) == Status::ok && writing.own(std::move(others[0])) == Status::ok);
        writes(ByWriting{writing}, writing.meter());
        writes(ByHandle{handles[0]}, handles[0].meter());
        uint64_t len = 9;
        MUST(handles[0].try_put(6, {60}).at == 19 && handles[0].try_len(len) == Status::ok && len == 1);
        MUST(handles[0].try_remove(6).status == Status::ok && handles[0].try_len(len) == Status::ok && len == 0);
    }
    shape.policy = CEFRODIL_POLICY_SCAN_RESISTANT;
    shape.items = 100;
    MUST(open(shape, 1, 1, handles) == Status::ok && open(shape, 1, 1, others) == Status::ok);
    a_key_that_leaves_for_the_bound(ByHandle{handles[0]}, handles[0].meter());
    Writing<1> writing;
    MUST(writing.own(std::move(others[0])) == Status::ok);
    a_key_that_leaves_for_the_bound(ByWriting{writing}, writing.meter());
    a_put_that_fails();
    shape.items = 2;
    MUST(open(shape, 1, 1, handles) == Status::ok);
    moves(shape, handles[0]);
    MUST(open(shape, 1, 1024, handles) == Status::ok && handles.size() == 1024);
    return outcome("writes");
}
