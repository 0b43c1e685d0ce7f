// Threads write a map that is full: no removal is undone, no update is lost, and no key counts twice.
#include "cefrodil_map.hpp"
#include "in_threads.hpp"
#include "must.h"
#include <algorithm>
#include <cstdlib>
#include <tuple>
#include <unistd.h>
#include <vector>

using cefrodil::Status;
using Numbers = cefrodil::map<uint64_t, uint64_t>;

static constexpr uint64_t threads = 4;

static uint64_t next_random(uint64_t &state) {
    state = state * 6364136223846793005u + 1442695040888963407u;
    return state >> 33;
}

static void open_full(Numbers &numbers, uint32_t entries, uint32_t passes = 64) {
    MUST(numbers.open({entries, 1, passes}) == Status::ok);
    for (uint64_t key = 0; key < 2 * entries; key++) {
        MUST(numbers.insert(1000000 + key, 0).status == Status::ok);
    }
}

// Each thread writes keys of its own, erases them, and looks up those of others. Other keys keep the map full. A number of a write that has returned is
// even if it put that, and odd if it erased what was there.
static void no_lookup_is_older_than_a_write_that_has_returned(uint32_t passes) {
    constexpr uint64_t keys = 4;
    Numbers numbers;
    open_full(numbers, 60, passes);
    std::atomic<uint64_t> written[threads][keys]{}, found[threads]{}, older{0};
    const uint64_t rounds = 6000 / fewer;
    in_threads(threads, [&](uint64_t thread) {
        uint64_t state = thread + 1;
        for (uint64_t number = 1; number < rounds; number++) {
            const uint64_t own = next_random(state) % keys, key = thread * keys + own;
            MUST(number % 2 == 0 ? numbers.insert_or_assign(key, number).status == Status::ok : numbers.erase(key) != Status::held);
            written[thread][own] = number;
            const uint64_t other = next_random(state) % threads, its = next_random(state) % keys;
            const uint64_t least = written[other][its];
            const auto value = numbers.find(other * keys + its);
            older += value.has_value() && *value < least;
            found[thread] += value.has_value();
            MUST(numbers.insert_or_assign(1000 + thread * rounds + number, 0).status == Status::ok);
        }
    });
    MUST(older == 0 && std::all_of(found, found + threads, [](const auto &each) { return each > 100 / fewer; }));
}

// A counter that was evicted begins anew, with a number of its own. No two updates make the same of it.
static void no_update_is_lost() {
    struct Count {
        uint64_t beginning, count;
    };
    cefrodil::map<uint64_t, Count> counts;
    MUST(counts.open({40, 1}) == Status::ok);
    std::atomic<uint64_t> beginnings{0};
    std::vector<std::tuple<uint64_t, uint64_t, uint64_t>> made[threads], all;
    in_threads(threads, [&](uint64_t thread) {
        uint64_t state = thread + 1;
        for (uint64_t number = 0; number < 6000 / fewer; number++) {
            const uint64_t key = next_random(state) % 6;
            const Count first{beginnings++, 0};
            const auto next = [](const Count &old) { return Count{old.beginning, old.count + 1}; };
            const auto counted = counts.update_or_insert(key, first, next);
            MUST(counted.status == Status::ok);
            made[thread].emplace_back(key, counted.value ? counted.value->beginning : 0, counted.value ? counted.value->count : 0);
            MUST(counts.insert_or_assign(1000 * (thread + 1) + number % 500, {0, 0}).status == Status::ok);
            static_cast<void>(counts.find(next_random(state) % 6));
        }
    });
    std::for_each(made, made + threads, [&](const auto &each) { all.insert(all.end(), each.begin(), each.end()); });
    std::sort(all.begin(), all.end());
    const auto longest = std::max_element(all.begin(), all.end(), [](const auto &one, const auto &other) { return std::get<2>(one) < std::get<2>(other); });
    MUST(std::adjacent_find(all.begin(), all.end()) == all.end() && std::get<2>(*longest) > 10 / fewer);
}

// Erasures beside lookups of the same keys. When all have ended, each key that is there counts once, and `clear` leaves none.
static void sizes_stay_right() {
    Numbers numbers;
    open_full(numbers, 100);
    in_threads(threads, [&](uint64_t thread) {
        uint64_t state = thread + 1;
        for (uint64_t number = 0; number < 20000 / fewer; number++) {
            const uint64_t key = next_random(state) % 300;
            switch (next_random(state) % 4) {
            case 0: MUST(numbers.insert(key, key).status != Status::held); break;
            case 1: MUST(numbers.erase(key) != Status::held); break;
            case 2: MUST(numbers.update(key, [](uint64_t old) { return old; }).status != Status::held); break;
            default: MUST(numbers.find(key).value_or(key) == key); break;
            }
        }
    });
    uint64_t there = 0;
    for (uint64_t key = 0; key < 300; key++) {
        there += numbers.contains(key);
    }
    const uint64_t size = numbers.size();
    uint64_t old = 0;
    for (uint64_t key = 0; key < 200; key++) {
        old += numbers.erase(1000000 + key) == Status::ok;
    }
    MUST(there + old == size && numbers.size() == there && size <= numbers.capacity());
    MUST(numbers.clear() == Status::ok && numbers.size() == 0 && !numbers.contains(1));
}

int main(int argc, char **argv) {
    fewer = argc > 1 ? std::strtoull(argv[1], nullptr, 10) : 1;
    alarm(argc > 1 ? 240 : 100); // so that a flight which never ends fails the test
    no_lookup_is_older_than_a_write_that_has_returned(64);
    no_lookup_is_older_than_a_write_that_has_returned(2);
    no_update_is_lost();
    sizes_stay_right();
    return outcome("map_races");
}
