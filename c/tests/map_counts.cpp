// A map counts its own lookups, each once, whatever calls of the index it takes. So its hit rate is exact: of each kind of map, in threads that come and
// go, and with passes that they share. Argument: by how much less to do.
#include "cefrodil_object_map.hpp"
#include "in_threads.hpp"
#include "must.h"
#include <atomic>
#include <cstdlib>
#include <thread>
#include <vector>

using cefrodil::Counts;
using cefrodil::Status;
using Numbers = cefrodil::map<uint64_t, uint64_t>;
using Sessions = cefrodil::timed_map<uint64_t, uint64_t>;
using Objects = cefrodil::object_map<uint64_t, uint64_t>;

static uint64_t next(uint64_t old) { return old + 1; }
static uint64_t first() { return 30; }

// Whether the calls count so many hits and misses, and none that is busy.
template <class Map, class Calls> static bool counted(const Map &map, uint64_t hits, uint64_t misses, Calls calls) {
    const Counts before = map.meter().counts();
    calls();
    const Counts after = map.meter().counts();
    return after.hits == before.hits + hits && after.misses == before.misses + misses && after.busy == 0;
}

// No write is a lookup, nor is a peek. The map has 1, and not 2.
template <class Map> static void writes(Map &map) {
    MUST(counted(map, 0, 0, [&] {
        MUST(map.insert(1, uint64_t(10)).status == Status::ok && map.insert(1, uint64_t(11)).status == Status::present);
        MUST(map.insert_or_assign(2, uint64_t(20)).status == Status::ok && map.insert_or_assign(2, uint64_t(21)).renewed);
        static_cast<void>(map.update(1, next));
        static_cast<void>(map.update(7, next));
        MUST(map.peek(1).value == 11u && map.peek(7).status == Status::absent);
        MUST(map.erase(2) == Status::ok && map.erase(2) == Status::absent);
    }));
}

// A map that is open and empty.
template <class Map> static void each_call_counts_once(Map &map) {
    writes(map);
    MUST(counted(map, 3, 0, [&] { MUST(map.find(1) == 11u && map.get(1).value == 11u && map.contains(1)); }));
    MUST(counted(map, 0, 3, [&] { MUST(!map.find(2) && map.get(2).status == Status::absent && !map.contains(2)); }));
    MUST(counted(map, 0, 1, [&] { MUST(map.find_or_compute(3, first).computed); }));
    MUST(counted(map, 1, 0, [&] { MUST(!map.find_or_compute(3, first).computed); }));
    // What invalidate_all has ended is a miss.
    MUST(counted(map, 0, 2, [&] { MUST(map.invalidate_all() == Status::ok && !map.find(1) && !map.contains(3)); }));
    MUST(counted(map, 0, 0, [&] { MUST(map.clear() == Status::ok); }));
}

static void each_map() {
    Numbers numbers;
    Sessions sessions;
    Objects objects;
    MUST(numbers.open({100}) == Status::ok && sessions.open({100}) == Status::ok && objects.open({100}) == Status::ok);
    each_call_counts_once(numbers);
    each_call_counts_once(sessions);
    each_call_counts_once(objects);
    MUST(objects.insert(1, uint64_t(10)).status == Status::ok);
    MUST(counted(objects, 1, 0, [&] { MUST(objects.look(1, [](uint64_t) {}) == Status::ok); }));
    MUST(counted(objects, 0, 1, [&] { MUST(objects.look(2, [](uint64_t) {}) == Status::absent); }));
}

// In a full map, which has some of these keys.
static void many_keys() {
    Numbers numbers;
    MUST(numbers.open({40, 1}) == Status::ok);
    std::vector<uint64_t> keys(100);
    std::vector<std::optional<uint64_t>> values(keys.size());
    for (uint64_t key = 0; key < keys.size(); key++) {
        keys[key] = key;
        MUST(numbers.insert(key, uint64_t(key)).status == Status::ok);
    }
    uint64_t present = 0;
    for (const uint64_t key : keys) {
        present += numbers.peek(key).value.has_value();
    }
    MUST(present == 40);
    for (const size_t count : {0, 1, 32, 33, 100}) {
        const Counts before = numbers.meter().counts();
        const uint64_t found = numbers.find_many(keys.data(), count, values.data());
        const Counts after = numbers.meter().counts();
        MUST(after.hits - before.hits == found && after.misses - before.misses == count - found);
    }
}

static std::atomic<int64_t> now{0};
static void what_has_expired() {
    Sessions sessions;
    Objects::Rules rules;
    rules.lives = {std::chrono::nanoseconds(100), cefrodil::forever, [] { return std::chrono::nanoseconds(now.load()); }};
    Objects objects;
    MUST(sessions.open({100}, rules.lives) == Status::ok && objects.open({100}, rules) == Status::ok);
    MUST(sessions.insert(1, 10).status == Status::ok && objects.insert(1, uint64_t(10)).status == Status::ok);
    const uint64_t keys[2] = {1, 2};
    std::optional<uint64_t> values[2];
    MUST(counted(sessions, 2, 1, [&] { MUST(sessions.find(1) == 10u && sessions.find_many(keys, 2, values) == 1); }));
    MUST(counted(objects, 1, 0, [&] { MUST(objects.find(1) == 10u); }));
    now += 100;
    MUST(counted(sessions, 0, 3, [&] { MUST(!sessions.find(1) && sessions.find_many(keys, 2, values) == 0); }));
    MUST(counted(objects, 0, 1, [&] { MUST(!objects.find(1)); }));
    MUST(counted(sessions, 0, 0, [&] { MUST(sessions.erase_expired() == Status::ok && sessions.size() == 0); }));
}

// Who waits for another thread's value has made one lookup, which found nothing.
template <class Map> static void waiting_counts_once() {
    Map map;
    MUST(map.open({100}) == Status::ok);
    std::thread other;
    const auto compute = [&] {
        other = std::thread([&] { MUST(map.find_or_compute(1, first).value == 10u); });
        while (map.meter().counts().misses != 2) {
            std::this_thread::yield();
        }
        // It begins to wait meanwhile.
        std::this_thread::sleep_for(std::chrono::milliseconds(100));
        return uint64_t(10);
    };
    MUST(counted(map, 0, 2, [&] {
        MUST(map.find_or_compute(1, compute).computed);
        other.join();
    }));
}

// All keys have the same number in the index.
struct Meeting {
    cefrodil::HashPair operator()(const uint64_t &key, const cefrodil::HashSecret &) const noexcept { return {7, key}; }
};

// The entry of another key is a miss.
template <class Map> static void another_key() {
    Map map;
    MUST(map.open({100}) == Status::ok && map.insert(1, uint64_t(10)).status == Status::ok);
    MUST(counted(map, 1, 2, [&] { MUST(!map.find(2) && !map.contains(2) && map.find(1) == 10u); }));
}

// So many threads look up keys of which half are there, and end. Those that find no pass share one.
template <class Map> static void look_up_in_threads(Map &map, uint64_t lookups) {
    in_threads(6, [&](size_t) {
        for (uint64_t key = 0; key < lookups; key++) {
            MUST(map.contains(key % 20) == (key % 20 < 10));
        }
    });
}

// Passes come back, and other threads take them: their counts stay. Also those of a map that is closed.
template <class Map> static void threads(uint32_t passes, uint64_t lookups) {
    Map map;
    MUST(map.open({100, 1, passes}) == Status::ok);
    for (uint64_t key = 0; key < 10; key++) {
        MUST(map.insert(key, uint64_t(key)).status == Status::ok);
    }
    const cefrodil::Meter meter = map.meter();
    for (uint64_t round = 1; round <= 3; round++) {
        look_up_in_threads(map, lookups);
        const Counts counts = meter.counts();
        MUST(counts.hits == round * 6 * lookups / 2 && counts.misses == counts.hits && counts.busy == 0 && counts.hit_rate() == 0.5);
    }
    MUST(map.close() == Status::ok && meter.counts().hits == 9 * lookups);
}

// Threads that share a pass count at the same time, and no count is lost.
static void shared_counts(uint64_t counts) {
    cefrodil_shape shape{};
    cefrodil::inside::Passes<1> passes;
    MUST(cefrodil_shape_for_items(100, 1, &shape) == CEFRODIL_OK && passes.open(shape, 1, 1) == Status::ok);
    in_threads(4, [&](size_t) {
        for (uint64_t count = 0; count < counts; count++) {
            passes.count(nullptr, cefrodil::inside::misses, 1);
        }
    });
    MUST(passes.shared().meter().counts().misses == 4 * counts);
}

// The keys up to 1 have one number in the index. All others have numbers of their own.
struct SomeMeet {
    cefrodil::HashPair operator()(const uint64_t &key, const cefrodil::HashSecret &) const noexcept {
        return {key < 2 ? 7 : key * 0x9e3779b97f4a7c15, key};
    }
};
// Threads that share a pass evict at the same time, by the index and over a key with the same number: no eviction is lost.
static void shared_evictions(uint64_t puts) {
    cefrodil::object_map<uint64_t, uint64_t, SomeMeet> map;
    MUST(map.open({100, 1, 1}) == Status::ok);
    std::atomic<uint64_t> evicted{0};
    in_threads(4, [&](size_t thread) {
        for (uint64_t n = 0; n < puts; n++) {
            evicted += map.insert_or_assign(thread < 2 ? n % 2 : 2 + n * 4 + thread, uint64_t(n)).evicted ? 1 : 0;
        }
    });
    MUST(evicted > puts && map.meter().counts().evictions == evicted);
}

static void rates() {
    Numbers numbers;
    MUST(numbers.meter().counts().hit_rate() == 0 && numbers.open({100}) == Status::ok && numbers.meter().counts().hit_rate() == 0);
    MUST(!numbers.find(1) && numbers.meter().counts().hit_rate() == 0 && numbers.insert(1, 10).status == Status::ok);
    MUST(numbers.find(1) && numbers.find(1) && numbers.find(1) && numbers.meter().counts().hit_rate() == 0.75);
    MUST(!numbers.find(1000) && numbers.meter().counts().hit_rate() == 0.6);
}

int main(int argc, char **argv) {
    const uint64_t less = argc > 1 ? std::strtoull(argv[1], nullptr, 10) : 1;
    each_map();
    many_keys();
    what_has_expired();
    waiting_counts_once<Numbers>();
    waiting_counts_once<Objects>();
    another_key<cefrodil::map<uint64_t, uint64_t, Meeting>>();
    another_key<cefrodil::object_map<uint64_t, uint64_t, Meeting>>();
    for (const uint32_t passes : {1, 3, 64}) {
        threads<Numbers>(passes, 4000 / less / 20 * 20);
        threads<Objects>(passes, 4000 / less / 20 * 20);
    }
    shared_counts(2000000 / less);
    shared_evictions(50000 / less);
    rates();
    return outcome("map_counts");
}
