// Calls of an object_map that lose what they looked up to another thread. They try again, as often as the map was told, and then say so. Keys are
// compared between a lookup and a write, so the comparison is where the other thread comes in.
#include "cefrodil_object_map.hpp"
#include "must.h"
#include <functional>
#include <thread>
#include <utility>

using cefrodil::Status;

// So many comparisons of this thread let another thread do this first.
static thread_local uint32_t overtaken = 0;
static std::function<void()> overtake;

struct Overtaken {
    bool operator()(uint64_t own, uint64_t key) const {
        if (overtaken != 0) {
            overtaken--;
            std::thread(overtake).join();
        }
        return own == key;
    }
};
// All keys have the same number in the index.
struct Meeting {
    cefrodil::HashPair operator()(const uint64_t &key, const cefrodil::HashSecret &) const noexcept { return {7, key}; }
};
using Map = cefrodil::object_map<uint64_t, uint64_t, Meeting, Overtaken>;

static constexpr uint32_t tries = 3;

// The key 1 has a value. What a call returns before which another thread does this, so many times, each time after the call looked its key up.
template <class Call> static Status after(Map &map, uint32_t times, std::function<void()> other, Call call) {
    cefrodil::MapOptions options{100, 1};
    options.tries = tries;
    static_cast<void>(map.close());
    MUST(map.open(options) == Status::ok && map.insert(1, uint64_t(10)).status == Status::ok);
    overtake = std::move(other);
    overtaken = times;
    const Status status = call();
    MUST(std::exchange(overtaken, 0) == 0);
    return status;
}

// Whatever a call is to change, another thread puts before.
template <class Call, class Check> static void each_try(Map &map, Call call, Check check) {
    const auto other = [&] { MUST(map.insert_or_assign(1, uint64_t(11)).renewed); };
    for (uint32_t times = 0; times <= tries; times++) {
        MUST(after(map, times, other, call) == Status::ok);
        check(times);
    }
    MUST(after(map, tries + 1, other, call) == Status::changed && map.find(1) == 11u && map.size() == 1);
}

int main() {
    Map map;
    each_try(map, [&] { return map.insert(2, uint64_t(20)).status; }, [&](uint32_t) { MUST(map.find(2) == 20u && !map.contains(1) && map.size() == 1); });
    each_try(map, [&] { return map.erase(1); }, [&](uint32_t) { MUST(!map.contains(1) && map.size() == 0); });
    uint64_t calls = 0;
    const auto next = [&](uint64_t old) { return calls++, old + 1; };
    each_try(map, [&] { return map.update(1, next); }, [&](uint32_t times) {
        MUST(map.find(1) == (times == 0 ? 11u : 12u) && std::exchange(calls, 0) == times + 1);
    });
    MUST(calls == tries + 1);
    // What another thread removes is gone, and what it puts is there.
    const auto removes = [&] { MUST(map.erase(1) == Status::ok); };
    MUST(after(map, 1, removes, [&] { return map.insert(2, uint64_t(20)).status; }) == Status::ok && map.find(2) == 20u && map.size() == 1);
    MUST(after(map, 1, removes, [&] { return map.update(1, next); }) == Status::absent && map.size() == 0);
    MUST(after(map, 1, removes, [&] { return map.erase(1); }) == Status::absent && map.size() == 0);
    const auto puts = [&] { MUST(map.insert_or_assign(2, uint64_t(21)).evicted); };
    MUST(after(map, 1, puts, [&] { return map.insert(2, uint64_t(20)).status; }) == Status::present && map.find(2) == 21u && map.size() == 1);
    return outcome("object_tries");
}
