// Calls that another one meets in the middle: between a put's call of the index and its end, between an entry's end and its update, and before a key's
// lock or under it. What such a put or update made is not found a second time, what was erased does not come back, and a put that succeeds is found.
#include "cefrodil.h"
#include <functional>
#include <utility>

// What this thread does after its next put into the index.
static thread_local std::function<void()> then;
// What it does after its next lookup, and before its next put where nothing is.
static thread_local std::function<void()> looked, putting;
static void meet(std::function<void()> &act) {
    if (act) {
        std::exchange(act, nullptr)();
    }
}
static cefrodil_status ended(cefrodil_status status, std::function<void()> &act) {
    meet(act);
    return status;
}
#define cefrodil_put_of_width(...) ended(cefrodil_put_of_width(__VA_ARGS__), then)
#define cefrodil_swap(...) ended(cefrodil_swap(__VA_ARGS__), then)
#define cefrodil_get_or_turn_of_width(...) ended(cefrodil_get_or_turn_of_width(__VA_ARGS__), looked)
#define cefrodil_put_if_absent(...) (meet(putting), cefrodil_put_if_absent(__VA_ARGS__))
#define cefrodil_swap_if_absent(...) (meet(putting), cefrodil_swap_if_absent(__VA_ARGS__))
#include "cefrodil_object_map.hpp"
#include "must.h"
#include <chrono>
#include <thread>

using cefrodil::Status;
using std::chrono::nanoseconds;
using Map = cefrodil::map<uint64_t, uint64_t>;
using Timed = cefrodil::timed_map<uint64_t, uint64_t>;
using Objects = cefrodil::object_map<uint64_t, uint64_t>;

static std::atomic<int64_t> now{0};
static nanoseconds clock_now() { return nanoseconds(now.load()); }

// One thread has put a value, and its call has not ended yet. Another one finds the value, invalidates it, and puts the next one.
template <class Any> static void put_that_is_invalidated(Any &map) {
    std::atomic<int> step{0};
    std::thread other;
    const auto act = [&] {
        MUST(map.find(1) == 10u && map.invalidate_all() == Status::ok && !map.find(1));
        step = 1;
        MUST(map.insert_or_assign(1, 20).status == Status::ok && map.find(1) == 20u);
        step = 2;
    };
    then = [&] {
        other = std::thread(act);
        while (step == 0) {
            std::this_thread::yield();
        }
        // It may wait for this call.
        for (int n = 0; n < 100 && step == 1; n++) {
            std::this_thread::sleep_for(std::chrono::milliseconds(1));
        }
    };
    MUST(map.insert_or_assign(1, 10).status == Status::ok && !then);
    other.join();
    MUST(map.find(1) == 20u);
}

static void puts_that_are_invalidated() {
    const cefrodil::MapOptions options{100, 1};
    Map map;
    Timed timed;
    Objects objects, weighed;
    Objects::Rules rules;
    rules.weigher = [](uint64_t, uint64_t) { return uint64_t(1); };
    MUST(map.open(options) == Status::ok && timed.open(options) == Status::ok && objects.open(options) == Status::ok);
    MUST(weighed.open(options, rules) == Status::ok);
    put_that_is_invalidated(map);
    put_that_is_invalidated(timed);
    put_that_is_invalidated(objects);
    put_that_is_invalidated(weighed);
}

static Status status_of(Status status) { return status; }
static Status status_of(const cefrodil::Found<uint64_t> &found) { return found.status; }

// The entry ends while the function of an update runs, and another call says that it is gone.
template <class Any> static void update_of_what_has_ended(Any &map) {
    now = 0;
    MUST(map.insert_for(1, 10, nanoseconds(100)).status == Status::ok);
    const auto next = [&](uint64_t old) {
        now = 200;
        MUST(map.erase(1) == Status::absent && map.size() == 0);
        return old + 1;
    };
    MUST(status_of(map.update_for(1, std::chrono::hours(1), next)) == Status::absent && !map.find(1) && map.size() == 0);
}

static void updates_of_what_has_ended() {
    cefrodil::Lives lives;
    lives.clock = clock_now;
    Objects::Rules rules;
    rules.lives = lives;
    Timed timed;
    Objects objects;
    MUST(timed.open({100}, lives) == Status::ok && objects.open({100}, rules) == Status::ok);
    update_of_what_has_ended(timed);
    update_of_what_has_ended(objects);
}

// What happens when a call of this thread next asks for the time.
static thread_local std::function<void()> act;
static void open_acting(Timed &map) {
    cefrodil::Lives lives;
    lives.clock = [] {
        meet(act);
        return clock_now();
    };
    MUST(map.open({100}, lives) == Status::ok);
}
static void open_acting(Objects &map) {
    Objects::Rules rules;
    rules.lives.clock = [] {
        meet(act);
        return clock_now();
    };
    now = 0;
    MUST(map.open({100}, rules) == Status::ok);
}

// The ended entry of a key is taken out while its value is put that was computed: after the put was refused for it.
static void computed_over_what_is_taken_out() {
    Objects map;
    open_acting(map);
    MUST(map.insert_for(1, 10, nanoseconds(100)).status == Status::ok);
    now = 200;
    const auto compute = [&] {
        act = [&] { std::thread([&] { MUST(map.erase_expired() == Status::ok && map.size() == 0); }).join(); };
        return uint64_t(11);
    };
    MUST(map.find_or_compute(1, compute).status == Status::ok && !act && map.find(1) == 11u);
}

// An insert meets an invalidation, and then an entry that was put after it and has ended.
static void insert_over_what_has_ended_since() {
    Objects map;
    open_acting(map);
    act = [&] {
        MUST(map.invalidate_all() == Status::ok && map.insert_for(1, 10, nanoseconds(100)).status == Status::ok);
        now = 200;
    };
    MUST(map.insert_for(1, 11, std::chrono::hours(1)).status == Status::ok && !act && map.find(1) == 11u);
}

// An entry that has ended is put anew when erase_expired has listed it, and before it is removed.
template <class Any> static void put_since_it_was_listed(Any &map) {
    now = 0;
    MUST(map.insert_for(1, 10, nanoseconds(100)).status == Status::ok);
    now = 200;
    act = [&] { MUST(map.insert_or_assign(1, 11).renewed); };
    MUST(map.erase_expired() == Status::ok && !act && map.find(1) == 11u && map.size() == 1);
}

static void puts_since_it_was_listed() {
    Timed timed;
    Objects objects;
    open_acting(timed);
    open_acting(objects);
    put_since_it_was_listed(timed);
    put_since_it_was_listed(objects);
}

// A value lands that is being computed when its key is erased, once that call has looked. It may be older than what the caller did before.
static void computed_before_an_erase() {
    Map map;
    std::atomic<int> step{0};
    const auto wait_for = [&](int next) {
        while (step != next) {
            std::this_thread::yield();
        }
    };
    MUST(map.open({100}) == Status::ok);
    std::thread computing([&] {
        const auto compute = [&] { return step = 1, wait_for(2), uint64_t(10); };
        MUST(map.find_or_compute(1, compute).status == Status::stale);
    });
    wait_for(1);
    looked = [&] { step = 2, computing.join(); };
    MUST(map.erase(1) == Status::absent && !looked && !map.find(1));
}

// Each key is its own number, by which the map's flights are told apart.
struct Same {
    cefrodil::HashPair operator()(const uint64_t &key, const cefrodil::HashSecret &) const noexcept { return {key, key}; }
};

// While a call computes a value, another one puts a value of the same key. The latter is invalidated and taken out. The former is not put then, though its
// flight is not outdated so far: a flight of key 0 is landing, so the invalidation waits.
template <class Any> static void computed_before_an_end(Any &map) {
    std::atomic<int> step{0};
    const auto wait_for = [&](int least) {
        while (step < least) {
            std::this_thread::yield();
        }
    };
    // So calls ask for the time when they have looked.
    MUST(map.insert_for(0, 1, nanoseconds(0)).status == Status::ok && map.insert_for(1, 2, nanoseconds(0)).status == Status::ok);
    // It has outdated no flight.
    std::thread other([&] {
        act = [&] { step = 1, wait_for(2); };
        MUST(map.insert(1, 10).status == Status::ok);
    });
    wait_for(1);
    std::thread landing, invalidating;
    const auto land = [&] {
        act = [&] { step = 3, wait_for(4); };
        return uint64_t(3);
    };
    const auto compute = [&] {
        step = 2;
        other.join();
        MUST(map.find(1) == 10u);
        landing = std::thread([&] { MUST(map.find_or_compute(0, land).computed); });
        wait_for(3);
        invalidating = std::thread([&] { MUST(map.invalidate_all() == Status::ok); });
        while (map.find(1)) {
            std::this_thread::yield();
        }
        MUST(map.erase_expired() == Status::ok && map.size() == 0);
        return uint64_t(11);
    };
    MUST(map.find_or_compute(1, compute).status == Status::stale && !map.find(1) && map.size() == 0);
    step = 4;
    landing.join();
    invalidating.join();
}

// The key's entry is invalidated, and another call would take it out, when an insert is about to put. It may have to wait for the insert, and gives up.
template <class Any> static void take_out_before_put(Any &map) {
    putting = [&map] {
        const auto take_out = [&map] {
            const Status status = map.invalidate_all() == Status::ok ? map.erase_expired() : Status::closed;
            MUST(status == Status::ok || status == Status::held);
        };
        std::thread(take_out).join();
    };
}
// If the insert says `ok`, the key has its value.
template <class Any> static void insert_before_an_end(Any &map) {
    const Status status = map.insert(2, 11).status;
    MUST(!putting && (status != Status::ok || map.find(2) == 11u));
}

static void what_has_ended_is_taken_out_before_a_put() {
    cefrodil::Lives lives;
    lives.clock = [] {
        meet(act);
        return clock_now();
    };
    cefrodil::MapOptions options{100, 1};
    options.tries = 3;
    cefrodil::timed_map<uint64_t, uint64_t, Same> timed;
    cefrodil::object_map<uint64_t, uint64_t, Same> objects;
    cefrodil::ObjectRules<uint64_t, uint64_t> rules;
    rules.lives = lives;
    MUST(timed.open(options, lives) == Status::ok && objects.open(options, rules) == Status::ok);
    computed_before_an_end(timed);
    computed_before_an_end(objects);
    MUST(timed.insert(2, 10).status == Status::ok);
    take_out_before_put(timed);
    insert_before_an_end(timed);
    // Nothing is there when it looks.
    looked = [&] {
        MUST(objects.insert(2, 10).status == Status::ok);
        take_out_before_put(objects);
    };
    insert_before_an_end(objects);
}

int main() {
    puts_that_are_invalidated();
    updates_of_what_has_ended();
    computed_over_what_is_taken_out();
    insert_over_what_has_ended_since();
    puts_since_it_was_listed();
    computed_before_an_erase();
    what_has_ended_is_taken_out_before_a_put();
    return outcome("crossed");
}
