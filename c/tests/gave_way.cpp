// What a put says of the entry that gave way to it: one that had ended, or that of another key with the same number in the index.
#include "cefrodil_object_map.hpp"
#include "must.h"
#include <utility>
#include <vector>

using cefrodil::Left;
using cefrodil::Status;
using cefrodil::Stored;
using std::chrono::nanoseconds;

static int64_t now = 0;
static nanoseconds clock_now() { return nanoseconds(now); }

// All keys have one number in the index.
struct Meeting {
    cefrodil::HashPair operator()(const uint64_t &key, const cefrodil::HashSecret &) const noexcept { return {7, key}; }
};

static bool is(const Stored &stored, bool renewed, bool evicted) {
    return stored.status == Status::ok && stored.renewed == renewed && stored.evicted == evicted;
}

// An insert takes an entry that has ended for another key's, in each map.
template <class Any> static void over_what_has_ended(Any &map) {
    now = 0;
    MUST(is(map.insert_for(1, uint64_t(10), nanoseconds(100)), false, false) && is(map.insert_or_assign(1, uint64_t(11)), true, false));
    MUST(map.invalidate_all() == Status::ok && is(map.insert_for(1, uint64_t(12), nanoseconds(100)), false, true) && map.size() == 1);
    now = 100;
    MUST(is(map.insert_for(1, uint64_t(13), nanoseconds(100)), false, true));
    now = 200;
    MUST(is(map.insert_or_assign(1, uint64_t(14)), true, false) && map.find(1) == 14u && map.size() == 1);
    MUST(map.meter().counts().evictions == 0);
}

static void over_what_has_ended_in_each_map() {
    cefrodil::Lives lives;
    lives.clock = clock_now;
    cefrodil::timed_map<uint64_t, uint64_t> timed;
    cefrodil::object_map<uint64_t, uint64_t> objects, weighed;
    decltype(objects)::Rules rules;
    rules.lives = lives;
    MUST(timed.open({100}, lives) == Status::ok && objects.open({100}, rules) == Status::ok);
    rules.weigher = [](uint64_t, uint64_t) { return uint64_t(1); };
    MUST(weighed.open({100}, rules) == Status::ok);
    over_what_has_ended(timed);
    over_what_has_ended(objects);
    over_what_has_ended(weighed);
}

// A value that is computed goes in the place of another key's, as any put does. That is an eviction.
static void beside_another_key() {
    std::vector<std::pair<uint64_t, Left>> heard;
    cefrodil::object_map<uint64_t, uint64_t, Meeting> map;
    MUST(map.open({100}, [&](const uint64_t &key, const uint64_t &, Left why) { heard.emplace_back(key, why); }) == Status::ok);
    MUST(map.insert(1, uint64_t(10)).status == Status::ok);
    const auto evictions = [&] { return map.meter().counts().evictions; };
    int computed = 0;
    for (int n = 0; n < 3; n++) {
        const auto found = map.find_or_compute(2, [&] { return computed++, uint64_t(20); });
        MUST(found.status == Status::ok && found.value == 20);
    }
    MUST(computed == 1 && map.size() == 1 && evictions() == 1);
    MUST(is(map.insert(3, uint64_t(30)), false, true) && is(map.insert_or_assign(4, uint64_t(40)), false, true) && evictions() == 3 && map.find(4) == 40u);
    const std::vector<std::pair<uint64_t, Left>> expected{{1, Left::evicted}, {2, Left::evicted}, {3, Left::evicted}};
    MUST(heard == expected);
}

int main() {
    over_what_has_ended_in_each_map();
    beside_another_key();
    return outcome("gave_way");
}
