// Entries of a map end: at their deadline, or when nobody has found them for a time. The tests of both kinds of maps share this. They set the clock.
#ifndef ENDING_ENTRIES_HPP
#define ENDING_ENTRIES_HPP

#include "cefrodil_object_map.hpp"
#include "must.h"
#include <algorithm>
#include <atomic>
#include <cstdint>
#include <optional>
#include <thread>
#include <vector>

using cefrodil::forever;
using cefrodil::Status;
using cefrodil::inside::status_of;
using std::chrono::nanoseconds;

static std::atomic<int64_t> now{0};

static cefrodil::Lives living(nanoseconds to_live, nanoseconds to_idle = forever) {
    return {to_live, to_idle, [] { return nanoseconds(now.load()); }};
}
template <class Hash>
Status opened(cefrodil::timed_map<uint64_t, uint64_t, Hash> &map, const cefrodil::MapOptions &options, const cefrodil::Lives &lives) {
    return map.open(options, lives);
}
template <class Hash>
Status opened(cefrodil::object_map<uint64_t, uint64_t, Hash> &map, const cefrodil::MapOptions &options, const cefrodil::Lives &lives) {
    cefrodil::ObjectRules<uint64_t, uint64_t> rules;
    rules.lives = lives;
    return map.open(options, rules);
}
static uint64_t next(uint64_t old) { return old + 1; }

static uint64_t next_random(uint64_t &state) {
    state = state * 6364136223846793005 + 1442695040888963407;
    return state >> 33;
}

// A deadline is the first moment at which the entry is over.
template <class Map> static void deadlines() {
    now = 1000;
    Map numbers;
    MUST(numbers.erase_expired() == Status::closed && numbers.insert_for(1, 1, forever).status == Status::closed);
    MUST(numbers.insert_or_assign_for(1, 1, forever).status == Status::closed && status_of(numbers.update_for(1, forever, next)) == Status::closed);
    MUST(opened(numbers, {1000}, living(nanoseconds(100))) == Status::ok && opened(numbers, {1000}, living(forever)) == Status::in_use);
    MUST(numbers.insert(1, 10).status == Status::ok && numbers.insert(2, 20).status == Status::ok && numbers.insert(3, 30).status == Status::ok);
    now = 1099;
    MUST(numbers.find(1) == 10u && numbers.contains(2) && numbers.insert(1, 11).status == Status::present);
    MUST(status_of(numbers.update(2, next)) == Status::ok && numbers.find(2) == 21u);
    now = 1100;
    MUST(!numbers.find(1) && !numbers.contains(2) && numbers.get(1).status == Status::absent && numbers.peek(1).status == Status::absent);
    MUST(numbers.size() == 3 && status_of(numbers.update(2, next)) == Status::absent && numbers.erase(2) == Status::absent && numbers.size() == 2);
    MUST(numbers.insert(1, 12).status == Status::ok && numbers.find(1) == 12u && numbers.size() == 2);
    MUST(numbers.erase_expired() == Status::ok && numbers.size() == 1 && numbers.find(1) == 12u);
    MUST(numbers.erase_expired() == Status::ok && numbers.size() == 1);
    // A put over a value begins the time anew.
    now = 1150;
    MUST(numbers.insert_or_assign(1, 13).renewed);
    now = 1249;
    MUST(numbers.find(1) == 13u);
    now = 1250;
    MUST(!numbers.find(1) && numbers.insert_or_assign(1, 14).status == Status::ok && numbers.find(1) == 14u);
    // So does a value that is computed.
    uint64_t calls = 0;
    const auto get = [&] { return numbers.find_or_compute(3, [&] { return ++calls; }); };
    MUST(get().computed && !get().computed && get().value == 1 && calls == 1);
    now = 1350;
    const auto again = get();
    MUST(again.status == Status::ok && again.value == 2 && again.computed && get().value == 2 && numbers.size() == 2);
    now = 1449;
    MUST(numbers.find(3) == 2u);
    now = 1450;
    MUST(!numbers.find(3) && get().value == 3 && numbers.invalidate_all() == Status::ok && !numbers.find(3));
    MUST(numbers.clear() == Status::ok && numbers.size() == 0);
}

// A put may say another time, in a map without one, too.
template <class Map> static void lives_of_entries() {
    now = 5000;
    Map numbers, plain;
    MUST(opened(numbers, {1000}, living(nanoseconds(100))) == Status::ok && plain.open({1000}) == Status::ok);
    MUST(numbers.insert_for(1, 10, nanoseconds(500)).status == Status::ok && numbers.insert_for(2, 20, forever).status == Status::ok);
    MUST(numbers.insert_for(1, 11, forever).status == Status::present);
    MUST(numbers.insert_or_assign_for(3, 30, nanoseconds(0)).status == Status::ok && !numbers.contains(3));
    MUST(numbers.insert_for(4, 40, nanoseconds(-7)).status == Status::ok && !numbers.contains(4));
    MUST(numbers.insert_or_assign_for(4, 41, nanoseconds::min()).status == Status::ok && !numbers.contains(4));
    now = 5499;
    MUST(numbers.find(1) == 10u && numbers.find(2) == 20u && status_of(numbers.update_for(1, nanoseconds(10), next)) == Status::ok);
    now = 5508;
    MUST(numbers.find(1) == 11u && numbers.insert_or_assign_for(2, 21, nanoseconds(1)).renewed);
    now = 5509;
    MUST(!numbers.find(1) && !numbers.find(2) && status_of(numbers.update_for(1, forever, next)) == Status::absent);
    MUST(plain.insert_for(1, 10, forever).status == Status::ok && plain.insert_for(2, 20, nanoseconds(0)).status == Status::ok);
    MUST(plain.insert_for(3, 30, std::chrono::hours(24)).status == Status::ok && plain.find(1) == 10u && !plain.find(2) && plain.find(3) == 30u);
    MUST(status_of(plain.update(3, next)) == Status::ok && plain.find(3) == 31u && plain.insert(2, 21).status == Status::ok && plain.find(2) == 21u);
    MUST(plain.insert(4, 40).status == Status::ok && plain.find(4) == 40u && status_of(plain.update_for(4, nanoseconds(0), next)) == Status::ok);
    MUST(!plain.find(4) && plain.size() == 4 && plain.erase_expired() == Status::ok && plain.size() == 3);
    Map moved = std::move(plain), &same = moved;
    moved = std::move(same);
    MUST(moved.find(3) == 31u && moved.close() == Status::ok);
}

// A function that may decline updates as any other: the entry gets the time of the call, or keeps its own. If it declines, it keeps all.
template <class Map> static void updates_that_may_decline() {
    now = 1000;
    Map numbers;
    MUST(opened(numbers, {1000}, living(nanoseconds(100))) == Status::ok);
    for (uint64_t key = 1; key <= 4; key++) {
        MUST(numbers.insert(key, uint64_t(10 * key)).status == Status::ok);
    }
    const auto raised = [](uint64_t old) { return std::optional<uint64_t>(old + 1); };
    const auto none = [](uint64_t) { return std::optional<uint64_t>(); };
    now = 1050;
    MUST(status_of(numbers.update_for(1, nanoseconds(500), raised)) == Status::ok);
    MUST(status_of(numbers.update_for(2, nanoseconds(500), none)) == Status::declined);
    MUST(status_of(numbers.update(3, raised)) == Status::ok && status_of(numbers.update_for(4, nanoseconds(20), raised)) == Status::ok);
    now = 1070;
    MUST(numbers.find(1) == 11u && numbers.find(2) == 20u && numbers.find(3) == 31u && !numbers.find(4));
    now = 1100;
    MUST(numbers.find(1) == 11u && !numbers.find(2) && !numbers.find(3));
    now = 1549;
    MUST(numbers.find(1) == 11u);
    now = 1550;
    MUST(!numbers.find(1));
}

// What is found stays. A time to live ends it all the same. A peek is no use, and to look for what has expired is none.
template <class Map> static void idle() {
    now = 100;
    Map numbers;
    MUST(opened(numbers, {1000}, living(nanoseconds(350), nanoseconds(100))) == Status::ok);
    for (uint64_t key = 1; key <= 3; key++) {
        MUST(numbers.insert(key, uint64_t(key)).status == Status::ok);
    }
    now = 190;
    MUST(numbers.peek(2).value == 2u && numbers.find(1) == 1u && numbers.erase_expired() == Status::ok && numbers.size() == 3);
    now = 200;
    MUST(numbers.peek(2).status == Status::absent && numbers.find(1) == 1u && !numbers.find(2));
    MUST(numbers.erase_expired() == Status::ok && numbers.size() == 1);
    now = 280;
    MUST(numbers.contains(1) && numbers.insert(1, 9).status == Status::present);
    now = 370;
    MUST(status_of(numbers.update(1, [](uint64_t old) { return old + 10; })) == Status::ok);
    now = 449;
    MUST(numbers.find(1) == 11u);
    now = 450;
    MUST(!numbers.find(1));
}

// A lookup begins the time to idle anew if more than a sixteenth of it has passed. So threads that find an entry seldom store in it.
template <class Map> static void idle_time_moves_by_a_sixteenth() {
    now = 0;
    Map numbers;
    MUST(opened(numbers, {1000, 1}, living(forever, nanoseconds(1600))) == Status::ok);
    MUST(numbers.insert(1, 10).status == Status::ok && numbers.insert(2, 20).status == Status::ok && numbers.insert(3, 30).status == Status::ok);
    now = 100;
    MUST(numbers.find(1) == 10u);
    now = 101;
    MUST(numbers.find(2) == 20u);
    now = 1000;
    // So does an insert that finds its key.
    MUST(numbers.insert(3, 31).status == Status::present);
    now = 1600;
    MUST(!numbers.peek(1).value && numbers.peek(2).value == 20u);
    now = 1701;
    MUST(!numbers.peek(2).value && numbers.peek(3).value == 30u);
    now = 2600;
    MUST(!numbers.peek(3).value && numbers.insert(1, 11).status == Status::ok);
    for (int n = 0; n < 32; n++) {
        now += 1500;
        MUST(numbers.find(1) == 11u);
    }
    now += 1600;
    MUST(!numbers.find(1));
}

// No call finds a value that had expired when the call began, while the clock goes on and others put. Entries live for 1,000.
template <class Map> static void threads_find_nothing_that_has_ended(uint64_t calls) {
    now = 0;
    Map map;
    MUST(opened(map, {1000}, living(nanoseconds(1000), nanoseconds(700))) == Status::ok);
    std::atomic<uint64_t> wrong{0}, hits{0};
    const auto work = [&](uint64_t drawn) {
        for (uint64_t n = 0; n < calls; n++) {
            const uint64_t key = next_random(drawn) % 100;
            const int64_t before = now++;
            // A value is when its put began. The clock goes on by less than that between the begin of a put and its deadline.
            const auto found = map.find(key);
            wrong += found && int64_t(*found) + 1000 + 100 * 1000 < before;
            hits += found.has_value();
            const Status status = n % 3 == 0 ? map.insert(key, uint64_t(now)).status : n % 3 == 1 ? map.erase(key) : map.erase_expired();
            wrong += status != Status::ok && status != Status::absent && status != Status::present;
        }
    };
    std::vector<std::thread> running;
    for (uint64_t n = 1; n <= 3; n++) {
        running.emplace_back(work, n);
    }
    std::for_each(running.begin(), running.end(), [](std::thread &thread) { thread.join(); });
    now += 1000;
    for (uint64_t key = 0; key < 100; key++) {
        MUST(!map.contains(key));
    }
    MUST(wrong == 0 && hits > 0 && map.erase_expired() == Status::ok && map.size() == 0);
}

// An entry that erase_expired leaves doesn't count as used: it gives way before those that were.
template <class Map> static void erasures_are_no_use() {
    Map map;
    MUST(map.open({40, 1}) == Status::ok);
    for (uint64_t key = 0; key < 40; key++) {
        MUST(map.insert(key, uint64_t(key)).status == Status::ok && (key >= 20 || map.contains(key)));
    }
    MUST(map.erase_expired() == Status::ok && map.size() == 40);
    for (uint64_t key = 100; key < 120; key++) {
        MUST(map.insert(key, uint64_t(key)).status == Status::ok);
    }
    for (uint64_t key = 0; key < 20; key++) {
        MUST(map.contains(key));
    }
}

template <class Map> static void entries_end(uint64_t calls) {
    deadlines<Map>();
    lives_of_entries<Map>();
    updates_that_may_decline<Map>();
    idle<Map>();
    idle_time_moves_by_a_sixteenth<Map>();
    threads_find_nothing_that_has_ended<Map>(calls);
    erasures_are_no_use<Map>();
}

#endif
