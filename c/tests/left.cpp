// What has left a map of objects: it is counted while it waits to be freed, it is freed soon, and the bound on weights is kept by whoever makes it leave.
// A listener may write, but not within too many others.
#include "cefrodil.h"

// So many evictions from now on are held.
static uint32_t held = 0;
// And so many in this one of two shards.
static uint64_t held_shard = 2;
static uint32_t held_there = UINT32_MAX;
static cefrodil_status some_evict(cefrodil_handle *handle, uint64_t near, uint64_t *old, size_t words, cefrodil_reply *reply) {
    const bool is_there = (near >> 48 & 1) == held_shard && held_there != 0;
    if (held != 0 || is_there) {
        held -= held != 0 ? 1 : 0;
        held_there -= is_there ? 1 : 0;
        *reply = cefrodil_reply{};
        return CEFRODIL_HELD;
    }
    return cefrodil_evict(handle, near, old, words, reply);
}
// And so many lookups are busy, at the first try.
static uint32_t busy = 0;
static cefrodil_status some_get(cefrodil_handle *handle, uint64_t key, uint64_t *value, size_t words, cefrodil_reply *reply) {
    if (busy != 0) {
        busy--;
        return CEFRODIL_BUSY;
    }
    return cefrodil_get_or_turn_of_width(handle, key, value, words, reply);
}
// And so many puts are held.
static uint32_t held_puts = 0;
static cefrodil_status some_swap(cefrodil_handle *handle, uint64_t key, const uint64_t *value, size_t words, uint64_t *old, size_t old_words,
                                 cefrodil_reply *reply) {
    if (held_puts != 0) {
        held_puts--;
        *reply = cefrodil_reply{};
        return CEFRODIL_HELD;
    }
    return cefrodil_swap(handle, key, value, words, old, old_words, reply);
}
// So many bounded puts from now on find no path once another key has left.
static uint32_t pathless = 0;
static cefrodil_status without_path(cefrodil_handle *handle, uint64_t key, uint64_t *old, size_t old_words, cefrodil_reply *reply) {
    pathless--;
    const cefrodil_status status = cefrodil_evict(handle, key, old, old_words, reply);
    if (status != CEFRODIL_OK) {
        return status;
    }
    reply->put = CEFRODIL_PUT_EVICTED;
    return CEFRODIL_NO_PATH;
}
// A stand-in for one of them.
#define SOME_SWAP(name)                                                                                                                               \
    static cefrodil_status some_##name(cefrodil_handle *handle, uint64_t key, uint32_t most, const uint64_t *value, size_t words, uint64_t *old,      \
                                       size_t old_words, cefrodil_reply *reply) {                                                                     \
        return pathless != 0 ? without_path(handle, key, old, old_words, reply)                                                                       \
                             : cefrodil_##name(handle, key, most, value, words, old, old_words, reply);                                               \
    }
#define SOME_PUT(name)                                                                                                                                \
    static cefrodil_status some_##name(cefrodil_handle *handle, uint64_t key, uint32_t most, const uint64_t *value, size_t words,                     \
                                       cefrodil_reply *reply) {                                                                                       \
        uint64_t old[8];                                                                                                                              \
        return pathless != 0 ? without_path(handle, key, old, words, reply) : cefrodil_##name(handle, key, most, value, words, reply);                \
    }
SOME_SWAP(swap_bounded)
SOME_SWAP(swap_if_absent_bounded)
SOME_PUT(put_bounded)
SOME_PUT(put_if_absent_bounded)
#define cefrodil_swap_bounded some_swap_bounded
#define cefrodil_swap_if_absent_bounded some_swap_if_absent_bounded
#define cefrodil_put_bounded some_put_bounded
#define cefrodil_put_if_absent_bounded some_put_if_absent_bounded
#define cefrodil_evict some_evict
#define cefrodil_get_or_turn_of_width some_get
#define cefrodil_swap some_swap
#include "cefrodil_object_map.hpp"
#include "must.h"
#include <malloc.h>
#include <thread>

using cefrodil::Left;
using cefrodil::Status;
using Map = cefrodil::object_map<uint64_t, uint64_t>;

static std::string printed(const Map &map) { return cefrodil::prometheus({{"map", map.meter().counts()}}); }

// While a function of `look` runs, all that has left waits.
static void what_waits_is_counted() {
    Map map;
    Map::Rules rules;
    rules.weigher = [](uint64_t, uint64_t value) { return value; };
    rules.most_weight = 100;
    MUST(map.waiting() == 0 && map.waiting_weight() == 0 && map.open({100}, rules) == Status::ok);
    for (uint64_t key = 0; key < 10; key++) {
        MUST(map.insert(key, uint64_t(10)).status == Status::ok);
    }
    const auto see = [&](uint64_t) {
        for (uint64_t n = 0; n < 100; n++) {
            MUST(map.insert_or_assign(5, uint64_t(10)).status == Status::ok);
        }
        const cefrodil::Counts counts = map.meter().counts();
        MUST(map.waiting() == 100 && map.waiting_weight() == 1000 && counts.waiting == 100 && counts.waiting_weight == 1000 && map.weight() == 100);
        MUST(printed(map).find("cefrodil_waiting_objects{cache=\"map\"} 100\n") != std::string::npos);
        MUST(printed(map).find("cefrodil_waiting_weight{cache=\"map\"} 1000\n") != std::string::npos);
    };
    MUST(map.look(1, see) == Status::ok && map.free_unused() == 100 && map.waiting() == 0 && map.waiting_weight() == 0);
}

// Nothing is counted in a map without a weigher but the objects. Once no call keeps them, few wait.
static void few_wait_after_a_look() {
    Map map;
    MUST(map.open({1000}) == Status::ok);
    for (uint64_t key = 0; key < 400; key++) {
        MUST(map.insert(key, uint64_t(1)).status == Status::ok);
    }
    const auto see = [&](uint64_t) {
        for (uint64_t key = 0; key < 40; key++) {
            MUST(map.erase(key) == Status::ok);
        }
        MUST(map.waiting() == 40 && map.waiting_weight() == 0);
    };
    MUST(map.look(399, see) == Status::ok);
    for (uint64_t key = 40; key < 240; key++) {
        MUST(map.erase(key) == Status::ok);
    }
    MUST(map.waiting() < 40);
}

// What a thread has left behind is freed by another one that goes on to write.
static void what_a_thread_leaves_is_freed() {
    Map map;
    MUST(map.open({1000, 1, 4}) == Status::ok);
    for (uint64_t key = 0; key < 300; key++) {
        MUST(map.insert(key, uint64_t(1)).status == Status::ok);
    }
    const auto erase = [&](uint64_t first, uint64_t end) {
        for (uint64_t key = first; key < end; key++) {
            MUST(map.erase(key) == Status::ok);
        }
    };
    std::thread([&] { erase(0, 20); }).join();
    MUST(map.waiting() == 20 && map.meter().counts().waiting == 20);
    erase(20, 20 + 4 * 32);
    MUST(map.waiting() < 20 && map.meter().counts().waiting == map.waiting());
}

// Other threads hold the shard's turn. A put tries again to evict, but no more often than it may. Then a later put goes on.
static void held_evictions() {
    Map map;
    Map::Rules rules;
    rules.weigher = [](uint64_t, uint64_t value) { return value; };
    rules.most_weight = 100;
    MUST(map.open({100, 1, 4, 5}, rules) == Status::ok);
    for (uint64_t key = 0; key < 10; key++) {
        MUST(map.insert(key, uint64_t(10)).status == Status::ok);
    }
    held = 5;
    MUST(map.insert(10, uint64_t(20)).evicted && held == 0 && map.contains(10) && map.weight() == 100);
    // It tries before the put and after it: each time the shard twice, as the fullest one and as one of all.
    held = 24;
    const cefrodil::Stored stored = map.insert(11, uint64_t(30));
    MUST(stored.status == Status::ok && !stored.evicted && held == 0 && map.contains(11) && map.weight() == 130);
    MUST(map.insert_or_assign(11, uint64_t(30)).status == Status::ok && map.weight() == 100 && map.contains(11));
    // A bound that shrinks says that too much is left.
    held = 12;
    MUST(map.set_most_weight(50) == Status::held && held == 0 && map.weight() == 100);
    MUST(map.set_most_weight(50) == Status::ok && map.weight() <= 50);
}

// A number is its own hash. The index takes its shard from the mixed bits.
struct Plain {
    cefrodil::HashPair operator()(uint64_t key, const cefrodil::HashSecret &) const noexcept { return {key, key}; }
};

// Other threads hold the turn of one shard. The other one evicts.
static void held_shards() {
    Map map;
    Map::Rules rules;
    rules.weigher = [](uint64_t, uint64_t value) { return value; };
    rules.most_weight = 200;
    MUST(map.open({1000, 2, 4, 5}, rules) == Status::ok);
    // Each shard has some 100, so a few evictions leave none empty.
    for (uint64_t key = 0; key < 500; key++) {
        held_shard = key < 400 || key % 20 >= 5 ? 2 : key / 20 % 2;
        MUST(map.insert(key, uint64_t(1)).evicted == (key >= 200) && map.contains(key) && map.weight() == std::min<uint64_t>(key + 1, 200));
    }
    MUST(map.set_capacity(150) == Status::ok);
    for (uint64_t key = 500; key < 600; key++) {
        held_shard = key % 20 >= 5 ? 2 : key / 20 % 2;
        MUST(map.insert(key, uint64_t(1)).evicted && map.contains(key) && map.size() == 150);
    }
    // A shard that is held for a while is tried again, though the other one is empty.
    for (const uint64_t shard : {0, 1}) {
        cefrodil::object_map<uint64_t, uint64_t, Plain> one;
        uint64_t key = 1;
        while ((cefrodil::inside::mixed(key) >> 48 & 1) != shard) {
            key++;
        }
        MUST(one.open({100, 2, 4, 5}, rules) == Status::ok && one.insert(key, uint64_t(10)).status == Status::ok);
        held_shard = shard, held_there = 3;
        MUST(one.set_most_weight(5) == Status::ok && one.weight() == 0 && one.size() == 0);
    }
    held_shard = 2, held_there = UINT32_MAX;
}

// So it is with a bound on the number of objects: the next put evicts all that is too much.
static void held_capacity() {
    Map map;
    MUST(map.open({100, 1, 4, 5}) == Status::ok);
    for (uint64_t key = 0; key < 10; key++) {
        MUST(map.insert(key, uint64_t(10)).status == Status::ok);
    }
    held = 1000;
    MUST(map.set_capacity(3) == Status::held && map.capacity() == 3 && map.size() == 10);
    // Nor does a put get a turn to evict. The next one does.
    MUST(!map.insert(11, uint64_t(10)).evicted && map.size() == 11);
    held = 0;
    MUST(map.insert(10, uint64_t(10)).evicted && map.size() == 3 && map.contains(10));
}

// The same, if one of four shards has all keys: the next put evicts all that is too much.
template <class Any> static void held_capacity_of_one_shard() {
    for (uint64_t shard = 0; shard < 4; shard++) {
        uint64_t next = 0;
        const auto key = [&] {
            do {
                next++;
            } while ((cefrodil::inside::mixed(next) >> 48 & 3) != shard);
            return next;
        };
        Any map;
        MUST(map.open({100, 4, 4, 5}) == Status::ok);
        for (uint64_t count = 0; count < 12; count++) {
            MUST(map.insert(key(), uint64_t(1)).status == Status::ok);
        }
        held = 1000;
        MUST(map.set_capacity(5) == Status::held && map.size() == 12);
        held = 0;
        MUST(map.insert(key(), uint64_t(1)).evicted && map.size() == 5 && map.contains(next));
    }
}

// A put says that others left, also if more are to leave and it gets no turn for these.
template <class Any> static void held_excess() {
    Any map;
    MUST(map.open({100, 2, 4, 5}) == Status::ok);
    uint64_t first = 0, last = 0;
    const auto key_of = [&](uint64_t shard, uint64_t &key) {
        do {
            key++;
        } while ((cefrodil::inside::mixed(key) >> 48 & 1) != shard);
        return key;
    };
    for (uint64_t count = 0; count < 5; count++) {
        MUST(map.insert(key_of(0, first), uint64_t(1)).status == Status::ok);
    }
    MUST(map.insert(key_of(1, last), uint64_t(1)).status == Status::ok);
    held = 1000;
    MUST(map.set_capacity(2) == Status::held && map.size() == 6);
    held = 0, held_shard = 0;
    MUST(map.insert(key_of(0, first), uint64_t(1)).evicted && map.size() == 6 && !map.contains(last));
    held_shard = 2;
    MUST(map.insert(key_of(0, first), uint64_t(1)).evicted && map.size() == 2);
}

// A key that a busy lookup does not find counts as a new one, so another one leaves for its weight. Its put says both that and that it replaced its own.
static void busy_replacement() {
    Map map;
    Map::Rules rules;
    rules.weigher = [](uint64_t, uint64_t value) { return value; };
    rules.most_weight = 100;
    MUST(map.open({100, 1, 4, 5}, rules) == Status::ok && map.insert(1, uint64_t(40)).status == Status::ok && map.insert(2, uint64_t(40)).status == Status::ok);
    MUST(map.contains(1) && map.contains(1));
    busy = 1;
    const auto stored = map.insert_or_assign(1, uint64_t(50));
    MUST(stored.status == Status::ok && busy == 0 && stored.renewed && stored.evicted && map.weight() == 50 && map.size() == 1 && map.find(1) == 50u);
}

// What was not put weighs nothing.
static void held_put() {
    Map map;
    Map::Rules rules;
    rules.weigher = [](uint64_t, uint64_t value) { return value; };
    MUST(map.open({100, 1, 4, 5}, rules) == Status::ok && map.insert(1, uint64_t(10)).status == Status::ok);
    held_puts = 6;
    MUST(map.insert_or_assign(2, uint64_t(20)).status == Status::held && held_puts == 0 && map.weight() == 10 && !map.contains(2));
    MUST(map.insert_or_assign(2, uint64_t(20)).status == Status::ok && map.weight() == 30);
}

// A thread that opens and closes maps keeps nothing of them.
static void closed_maps_leave_nothing() {
    const auto open_and_close = [](int times) {
        for (int n = 0; n < times; n++) {
            Map map;
            MUST(map.open({10}) == Status::ok && map.insert(1, uint64_t(1)).status == Status::ok);
        }
        return mallinfo2().uordblks;
    };
    const size_t before = open_and_close(300), after = open_and_close(1000);
    MUST(after < before + 100000);
}

// A listener that puts back what was evicted evicts another object, of which it hears, too. Within 16 listeners its puts are refused.
static void listeners_that_put() {
    Map map;
    uint64_t depth = 0, deepest = 0, refused = 0;
    const auto put_back = [&](const uint64_t &key, const uint64_t &value, Left) {
        deepest = std::max(deepest, ++depth);
        const Status status = map.insert(key, uint64_t(value)).status;
        refused += status == Status::too_deep;
        MUST(status == Status::ok || (status == Status::too_deep && depth == 16));
        MUST(depth < 16 || (map.erase(key) == Status::absent && map.insert_or_assign(key, uint64_t(0)).status == Status::too_deep &&
                            map.set_most_weight(0) == Status::too_deep && map.set_capacity(1) == Status::too_deep));
        depth--;
    };
    MUST(map.open({40, 1}, put_back) == Status::ok);
    for (uint64_t key = 0; key < 200; key++) {
        MUST(map.insert(key, uint64_t(key)).status == Status::ok);
    }
    MUST(deepest == 16 && refused > 0 && map.size() <= map.capacity());
    MUST(std::string(cefrodil::text(Status::too_deep)) == "too many listeners within each other");
}

// A listener that removes the next key: the last of 16 removes none.
static void listeners_that_erase() {
    Map map;
    const auto erase_next = [&](const uint64_t &key, const uint64_t &, Left) { static_cast<void>(map.erase(key + 1)); };
    MUST(map.open({1000}, erase_next) == Status::ok);
    for (uint64_t key = 0; key < 100; key++) {
        MUST(map.insert(key, uint64_t(key)).status == Status::ok);
    }
    MUST(map.erase(0) == Status::ok && map.size() == 84 && map.contains(16) && !map.contains(15));
}

// If a put into a full map fails once another entry has left for it, that one is counted, and there is room for one key.
template <class Any> static void puts_without_a_path(Any &map) {
    for (uint64_t key = 0; key < 3000; key++) {
        MUST(map.insert(key, uint64_t(key)).status == Status::ok);
    }
    const uint64_t evictions = map.counts().evictions;
    for (uint64_t key = 10000; key < 10010; key++) {
        pathless = 1;
        const auto stored = key % 2 == 0 ? map.insert(key, uint64_t(key)) : map.insert_or_assign(key, uint64_t(key));
        MUST(stored.status == Status::no_path && stored.evicted && !stored.renewed && pathless == 0 && map.size() == 1099 && !map.contains(key));
        MUST(!map.insert(key, uint64_t(key)).evicted && map.size() == 1100 && map.counts().evictions == evictions + key - 9999);
    }
    MUST(map.counts().evicted_by_capacity == map.counts().evictions && map.insert(20000, 1).evicted && map.size() == 1100);
}

static void without_a_path() {
    cefrodil::map<uint64_t, uint64_t> numbers;
    MUST(numbers.open({1000, 4}) == Status::ok);
    puts_without_a_path(numbers);
    Map map;
    Map::Rules rules;
    uint64_t heard = 0;
    rules.listener = [&](uint64_t, uint64_t, Left why) { heard += why == Left::evicted ? 1 : 0; };
    MUST(map.open({1000, 4}, rules) == Status::ok);
    puts_without_a_path(map);
    MUST(heard == map.counts().evictions && map.free_unused() != 0 && map.waiting() == 0);
}

int main() {
    what_waits_is_counted();
    few_wait_after_a_look();
    what_a_thread_leaves_is_freed();
    held_evictions();
    held_capacity();
    held_capacity_of_one_shard<cefrodil::map<uint64_t, uint64_t, Plain>>();
    held_capacity_of_one_shard<cefrodil::object_map<uint64_t, uint64_t, Plain>>();
    held_shards();
    held_excess<cefrodil::map<uint64_t, uint64_t, Plain>>();
    held_excess<cefrodil::object_map<uint64_t, uint64_t, Plain>>();
    busy_replacement();
    held_put();
    closed_maps_leave_nothing();
    listeners_that_put();
    listeners_that_erase();
    without_a_path();
    return outcome("left");
}
