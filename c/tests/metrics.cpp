// What maps count beside their lookups: why entries left, and the functions that computed values.
#include "cefrodil_object_map.hpp"
#include "in_threads.hpp"
#include "must.h"
#include <stdexcept>
#include <string>

using cefrodil::Counts;
using cefrodil::Status;
using std::chrono::milliseconds;
using Numbers = cefrodil::map<uint64_t, uint64_t>;
using Sessions = cefrodil::timed_map<uint64_t, uint64_t>;
using Objects = cefrodil::object_map<uint64_t, uint64_t>;

template <class Map> static void fill(Map &map, uint64_t first, uint64_t count) {
    for (uint64_t key = first; key < first + count; key++) {
        MUST(map.insert(key, uint64_t(10)).status == Status::ok);
    }
}

// The evictions of a cause are among all.
static bool are_evictions(const Counts &counts, uint64_t all, uint64_t by_weight, uint64_t by_capacity) {
    return counts.evictions == all && counts.evicted_by_weight == by_weight && counts.evicted_by_capacity == by_capacity;
}

template <class Map> static void by_number() {
    Map map;
    MUST(map.open({100}) == Status::ok);
    fill(map, 0, 130);
    MUST(are_evictions(map.counts(), 30, 0, 0) && map.set_capacity(60) == Status::ok && are_evictions(map.counts(), 70, 0, 40));
    fill(map, 200, 5);
    MUST(are_evictions(map.counts(), 75, 0, 45) && map.erase(204) == Status::ok && are_evictions(map.counts(), 75, 0, 45));
}

static void by_weight() {
    Objects objects;
    Objects::Rules rules;
    rules.weigher = [](uint64_t, uint64_t value) { return value; };
    rules.most_weight = 500;
    MUST(objects.open({100}, rules) == Status::ok);
    fill(objects, 0, 60);
    MUST(objects.weight() == 500 && are_evictions(objects.counts(), 10, 10, 0) && objects.set_most_weight(200) == Status::ok);
    MUST(are_evictions(objects.counts(), 40, 40, 0) && objects.set_capacity(15) == Status::ok && are_evictions(objects.counts(), 45, 40, 5));
}

static std::atomic<int64_t> now{0};
static const cefrodil::Lives lives{std::chrono::nanoseconds(100), cefrodil::forever, [] { return std::chrono::nanoseconds(now.load()); }};

static Status open(Sessions &sessions) { return sessions.open({100}, lives); }
static Status open(Objects &objects) {
    Objects::Rules rules;
    rules.lives = lives;
    return objects.open({100}, rules);
}

// What is removed since it has ended, and no more.
template <class Map> static void ended() {
    Map map;
    MUST(open(map) == Status::ok);
    fill(map, 0, 10);
    MUST(map.erase_expired() == Status::ok && map.counts().ended == 0);
    now += 60;
    fill(map, 10, 5);
    now += 60;
    MUST(map.erase_expired() == Status::ok && map.counts().ended == 10 && map.size() == 5 && map.counts().evictions == 0);
    MUST(map.invalidate_all() == Status::ok && map.erase_expired() == Status::ok && map.counts().ended == 15 && map.size() == 0);
}

static bool are_loads(const Counts &counts, uint64_t loads, uint64_t failures) { return counts.loads == loads && counts.load_failures == failures; }

// A function that ran is counted, whether its value was put or not. One that declined or threw has failed.
template <class Map> static void loads() {
    Map map;
    MUST(map.find_or_compute(1, [] { return 1; }).computed && are_loads(map.counts(), 0, 0) && map.open({100}) == Status::ok);
    MUST(map.find_or_compute(1, [] { return 1; }).computed && !map.find_or_compute(1, [] { return 2; }).computed && are_loads(map.counts(), 1, 0));
    MUST(!map.find_or_compute(2, [] { return std::optional<uint64_t>(); }).value && are_loads(map.counts(), 2, 1));
    MUST(map.find_or_compute(2, [] { return std::optional<uint64_t>(7); }).value == 7u && are_loads(map.counts(), 3, 1));
    bool has_thrown = false;
    try {
        static_cast<void>(map.find_or_compute(3, []() -> uint64_t { throw std::runtime_error("no value"); }));
    } catch (const std::runtime_error &) {
        has_thrown = true;
    }
    MUST(has_thrown && are_loads(map.counts(), 4, 2));
    // It was put by another call meanwhile, and so it is stale.
    const auto beside = [&] { return map.insert(3, 4).status == Status::ok ? uint64_t(5) : 0; };
    const auto computed = map.find_or_compute(3, beside);
    MUST(computed.status == Status::stale && computed.value == 5);
    MUST(are_loads(map.counts(), 5, 2) && map.find(3) == 4u);
    // Nor has one failed that ran while an exception went through its caller.
    struct Last {
        explicit Last(Map &its_map) : map(its_map) {}
        ~Last() { MUST(map.find_or_compute(5, [] { return 6; }).computed); }
        Map &map;
    };
    try {
        const Last last(map);
        throw std::runtime_error("not of a load");
    } catch (const std::runtime_error &) {
        MUST(are_loads(map.counts(), 6, 2));
    }
}

static void loads_of_pins() {
    Objects objects;
    MUST(objects.open({100}) == Status::ok && *objects.pin_or_compute(1, [] { return 1; }).value == 1 && are_loads(objects.counts(), 1, 0));
    MUST(!objects.pin_or_compute(2, [] { return std::optional<uint64_t>(); }).value && are_loads(objects.counts(), 2, 1));
    MUST(*objects.pin_or_compute(2, [] { return std::optional<uint64_t>(2); }).value == 2 && are_loads(objects.counts(), 3, 1));
}

// The time is that of the functions alone, of all threads together.
template <class Map> static void load_time() {
    Map map;
    MUST(map.open({100}) == Status::ok && map.counts().load_time == milliseconds(0));
    const auto begun = std::chrono::steady_clock::now();
    in_threads(4, [&](size_t thread) {
        const auto slow = [] { return std::this_thread::sleep_for(milliseconds(20)), uint64_t(1); };
        MUST(map.find_or_compute(thread, slow).computed && !map.find_or_compute(thread, slow).computed);
    });
    const auto longest = std::chrono::steady_clock::now() - begun;
    const Counts counts = map.counts();
    MUST(are_loads(counts, 4, 0) && counts.load_time >= milliseconds(80) && counts.load_time <= 4 * longest);
}

template <class Map> static void rate() {
    Map map;
    MUST(map.hit_rate_of_last_minute() == 0 && map.open({100}) == Status::ok && map.hit_rate_of_last_minute() == 0);
    MUST(map.insert(1, 1).status == Status::ok && map.find(1) == 1u && !map.find(2) && map.hit_rate_of_last_minute() == 0.5);
    MUST(map.find(1) == 1u && map.find(1) == 1u && map.hit_rate_of_last_minute() == 0.75 && map.counts().hit_rate_of_last_minute == 0.75);
    const std::string text = cefrodil::prometheus({{"map", map.counts()}});
    MUST(text.find("cefrodil_hit_rate{cache=\"map\"} 0.750000000\n") != std::string::npos);
}

int main() {
    by_number<Numbers>();
    by_number<Sessions>();
    by_number<Objects>();
    by_weight();
    ended<Sessions>();
    ended<Objects>();
    loads<Numbers>();
    loads<Objects>();
    loads_of_pins();
    load_time<Numbers>();
    load_time<Objects>();
    rate<Numbers>();
    rate<Objects>();
    return outcome("metrics");
}
