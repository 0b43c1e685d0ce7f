// Entries of a timed_map end. Argument: by how much less to do.
#include "ending_entries.hpp"
#include <algorithm>
#include <cstdlib>
#include <map>
#include <string>

using Numbers = cefrodil::timed_map<uint64_t, uint64_t>;

// The calls of a map of values: many keys are looked up at once, and an update may insert.
static void calls_of_values() {
    now = 0;
    Numbers numbers;
    MUST(numbers.open({1000}, living(forever, nanoseconds(100))) == Status::ok && numbers.insert(1, 10).status == Status::ok);
    MUST(numbers.insert(2, 20).status == Status::ok && numbers.insert_for(3, 30, nanoseconds(150)).status == Status::ok);
    const uint64_t keys[2] = {1, 3};
    std::optional<uint64_t> values[2];
    now = 90;
    MUST(numbers.find_many(keys, 2, values) == 2 && values[0] == 10u && values[1] == 30u);
    now = 100;
    MUST(numbers.find_many(keys, 2, values) == 2 && !numbers.find(2) && numbers.update_or_insert(2, 21, next).value == 21u);
    now = 150;
    MUST(numbers.find_many(keys, 2, values) == 1 && values[0] == 10u && !values[1] && numbers.update_or_insert(2, 0, next).value == 22u);
}

// erase_expired removes what invalidate_all has ended, and nothing else.
static void erases_what_is_invalidated(const cefrodil::Lives &lives) {
    now = 1000;
    Numbers numbers;
    MUST(numbers.open({40, 1}, lives) == Status::ok);
    for (uint64_t round = 0; round < 5; round++) {
        for (uint64_t key = 0; key < 43; key++) {
            MUST(numbers.insert(key, uint64_t(key)).status == Status::ok);
        }
        const uint64_t all = numbers.size();
        MUST(numbers.erase_expired() == Status::ok && numbers.size() == all && all == 40);
        MUST(numbers.invalidate_all() == Status::ok && (round != 3 || numbers.invalidate_all() == Status::ok));
        // It was used, so another one gives way.
        MUST(numbers.insert(0, 7).status == Status::ok && numbers.find(0) == 7u && numbers.insert_or_assign_for(50, 8, forever).status == Status::ok);
        MUST(numbers.update(0, next).value == 8u && numbers.size() >= 2);
        MUST(numbers.erase_expired() == Status::ok && numbers.size() == 2 && numbers.find(0) == 8u && numbers.find(50) == 8u);
        MUST(numbers.clear() == Status::ok);
    }
}

// Nor does what was put stay if many generations have begun since then.
static void erases_what_is_invalidated_often() {
    now = 1000;
    Numbers numbers;
    MUST(numbers.open({40, 1}, living(nanoseconds(100))) == Status::ok);
    for (const uint64_t times : {2, 16, 256, 1024, 65536}) {
        MUST(numbers.insert(1, 10).status == Status::ok);
        for (uint64_t n = 0; n < times; n++) {
            MUST(numbers.invalidate_all() == Status::ok);
        }
        MUST(!numbers.find(1) && numbers.size() == 1 && numbers.erase_expired() == Status::ok && numbers.size() == 0);
    }
}

// All keys have few numbers in the index, so one key's entry gives way to another's.
struct Meeting {
    cefrodil::HashPair operator()(const uint64_t &key, const cefrodil::HashSecret &) const noexcept { return {key % 7, key}; }
};

// What is found is the last value that was put, before its deadline. A map with room for all keys finds each.
template <class Hash> static void agrees_with_a_model(const cefrodil::MapOptions &options, bool has_room, uint64_t calls) {
    struct Known {
        uint64_t value;
        int64_t deadline;
    };
    now = 0;
    std::map<uint64_t, Known> model;
    uint64_t drawn = 1, hits = 0, misses = 0;
    cefrodil::timed_map<uint64_t, uint64_t, Hash> map;
    MUST(map.open(options, living(nanoseconds(50))) == Status::ok);
    for (uint64_t n = 1; n <= calls; n++) {
        now += int64_t(next_random(drawn) % 3);
        const uint64_t key = next_random(drawn) % 60;
        const auto life = nanoseconds(next_random(drawn) % 100);
        const auto known = model.find(key);
        const auto found = map.find(key);
        const bool is_known = known != model.end() && known->second.deadline > now;
        MUST(found ? is_known && known->second.value == *found : !is_known || !has_room);
        hits += found.has_value(), misses += known != model.end() && !is_known;
        const int64_t deadline = now + 50, own = now + life.count(), kept = is_known ? known->second.deadline : 0;
        std::pair<Status, int64_t> put{Status::absent, 0};
        switch (next_random(drawn) % 6) {
        case 0: put = {map.insert(key, n).status, deadline}; break;
        case 1: put = {map.insert_or_assign_for(key, n, life).status, own}; break;
        case 2: put = {map.insert_for(key, n, life).status, own}; break;
        case 3: put = {map.update(key, [&](uint64_t) { return n; }).status, kept}; break;
        case 4: put = {map.update_for(key, life, [&](uint64_t) { return n; }).status, own}; break;
        default: MUST((map.erase(key) == Status::ok) == found.has_value()); model.erase(key);
        }
        MUST(put.first != Status::present || found);
        if (put.first == Status::ok) {
            model[key] = {n, put.second};
        }
    }
    MUST(hits > calls / 20 && misses > calls / 50);
}

int main(int argc, char **argv) {
    const uint64_t less = argc > 1 ? std::strtoull(argv[1], nullptr, 10) : 1;
    entries_end<Numbers>(2000 / less);
    calls_of_values();
    for (const auto to_idle : {forever, nanoseconds(1024), nanoseconds(std::chrono::hours(1))}) {
        erases_what_is_invalidated(living(forever, to_idle));
        erases_what_is_invalidated(living(nanoseconds(100), to_idle));
    }
    erases_what_is_invalidated_often();
    agrees_with_a_model<cefrodil::SipHash<uint64_t>>({1000}, true, 30000 / less);
    agrees_with_a_model<cefrodil::SipHash<uint64_t>>({30, 1}, false, 30000 / less);
    agrees_with_a_model<Meeting>({100, 1}, false, 30000 / less);
    return outcome("timed_map");
}
