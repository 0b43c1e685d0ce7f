// Entries that have ended leave by themselves: each call that puts looks at two places of its shard. So in a full map they go before any that lives.
// Argument: by how much less to do.
#include "cefrodil_object_map.hpp"
#include "in_threads.hpp"
#include "must.h"
#include <cstdlib>
#include <map>

using cefrodil::Left;
using cefrodil::Status;
using std::chrono::nanoseconds;
using Sessions = cefrodil::timed_map<uint64_t, uint64_t>;
using Objects = cefrodil::object_map<uint64_t, uint64_t>;

static std::atomic<int64_t> now{0};
static cefrodil::Lives lives_of(nanoseconds time_to_live, nanoseconds time_to_idle = cefrodil::forever) {
    return {time_to_live, time_to_idle, [] { return nanoseconds(now.load()); }};
}
static Status open(Sessions &sessions, const cefrodil::MapOptions &options, const cefrodil::Lives &lives) { return sessions.open(options, lives); }
static Status open(Objects &objects, const cefrodil::MapOptions &options, const cefrodil::Lives &lives) {
    Objects::Rules rules;
    rules.lives = lives;
    return objects.open(options, rules);
}

template <class Map> static void fill(Map &map, uint64_t first, uint64_t count) {
    for (uint64_t key = first; key < first + count; key++) {
        MUST(map.insert(key, uint64_t(key)).status == Status::ok);
    }
}

// Of 100 that have ended all are gone after 50 puts over a value: each looks at two of the 100 places. None of them is evicted.
template <class Map> static void all_leave() {
    Map map;
    MUST(open(map, {100, 1}, lives_of(nanoseconds(1000))) == Status::ok);
    fill(map, 0, 99);
    now += 1000;
    MUST(map.insert_or_assign_for(200, 1, cefrodil::forever).status == Status::ok && map.size() > 90);
    for (int n = 0; n < 50; n++) {
        MUST(map.insert_or_assign_for(200, 1, cefrodil::forever).status == Status::ok);
    }
    MUST(map.size() == 1 && map.find(200) == 1u && map.counts().ended == 99 && map.counts().evictions == 0);
}

// So are they after updates.
template <class Map> static void all_leave_with_updates() {
    Map map;
    MUST(open(map, {100, 1}, lives_of(nanoseconds(1000))) == Status::ok);
    fill(map, 0, 99);
    now += 1000;
    MUST(map.insert_or_assign_for(200, 1, cefrodil::forever).status == Status::ok && map.size() > 90);
    for (int n = 0; n < 50; n++) {
        MUST(cefrodil::inside::status_of(map.update(200, [](uint64_t old) { return old + 1; })) == Status::ok);
    }
    MUST(map.size() == 1 && map.find(200) == 51u && map.counts().ended == 99);
}

// A put that finds it tries for the lock of its key, as each write does. If another thread has that, it stays.
static void locked_ones_stay() {
    using cefrodil::inside::Timed;
    cefrodil::inside::Table<uint64_t, Timed> entries{Timed(lives_of(nanoseconds(1000)))};
    MUST(entries.open(100, 1, 2, 5) == Status::ok && entries.put({1, 1}, 10).status == Status::ok);
    now += 1000;
    const auto put_at_all_places = [&] {
        for (int n = 0; n < 60; n++) {
            MUST(entries.put({2, 2}, 20).status == Status::ok);
        }
    };
    MUST(entries.locks.of(1).try_lock());
    put_at_all_places();
    MUST(entries.keys() == 2);
    entries.locks.of(1).unlock();
    put_at_all_places();
    MUST(entries.keys() == 1);
}

// What ended goes, and what lives stays: while half of the entries have ended, new keys evict none that lives.
template <class Map> static void ended_ones_first(const cefrodil::MapOptions &options) {
    Map map;
    MUST(open(map, options, lives_of(nanoseconds(1000))) == Status::ok);
    const uint64_t half = options.entries / 2;
    fill(map, 0, half);
    now += 600;
    fill(map, half, half);
    now += 600;
    for (uint64_t key = 0; key < half; key++) {
        MUST(map.insert(10000 + key, 1).status == Status::ok);
    }
    uint64_t stay = 0;
    for (uint64_t key = half; key < 2 * half; key++) {
        stay += map.peek(key).value.has_value() ? 1 : 0;
    }
    MUST(stay == half && map.counts().evictions == 0 && map.counts().ended + map.size() == 3 * half);
}

// So it is with what invalidate_all has ended, and with what nobody has asked for.
template <class Map> static void other_ends() {
    Map map, idle;
    MUST(open(map, {100, 1}, lives_of(nanoseconds(10000))) == Status::ok && open(idle, {100, 1}, lives_of(cefrodil::forever, nanoseconds(1600))) == Status::ok);
    fill(map, 0, 100);
    fill(idle, 0, 100);
    now += 800;
    for (uint64_t key = 50; key < 100; key++) {
        MUST(idle.find(key) == key);
    }
    now += 1000;
    MUST(map.invalidate_all() == Status::ok);
    fill(map, 200, 60);
    fill(idle, 200, 50);
    MUST(map.counts().ended == 100 && map.size() == 60 && map.counts().evictions == 0);
    for (uint64_t key = 50; key < 100; key++) {
        MUST(idle.peek(key).value == key);
    }
    MUST(idle.counts().evictions == 0 && idle.counts().ended == 50);
}

// The listener hears that they have expired, once of each, and they are freed.
static void listeners() {
    std::map<uint64_t, Left> left;
    Objects objects;
    Objects::Rules rules;
    rules.lives = lives_of(nanoseconds(1000));
    rules.listener = [&](uint64_t key, uint64_t, Left why) {
        MUST(left.count(key) == 0);
        left[key] = why;
    };
    MUST(objects.open({100, 1}, rules) == Status::ok);
    fill(objects, 0, 100);
    now += 1000;
    fill(objects, 100, 60);
    MUST(left.size() == 100 && objects.size() == 60 && objects.free_unused() != 0 && objects.waiting() == 0);
    for (const auto &[key, why] : left) {
        MUST(key < 100 && why == Left::expired);
    }
}

// Threads put keys that soon end. No object is lost, or freed while it is found, as ThreadSanitizer and valgrind see.
static void threads(uint64_t puts) {
    std::atomic<uint64_t> put{0}, left{0};
    Objects objects;
    Objects::Rules rules;
    rules.lives = lives_of(nanoseconds(300));
    rules.listener = [&](uint64_t, uint64_t, Left) { left++; };
    MUST(objects.open({200, 2}, rules) == Status::ok);
    in_threads(4, [&](uint64_t thread) {
        for (uint64_t n = 0; n < puts; n++) {
            now++;
            put += objects.insert_or_assign(n * 4 % 400 + thread, uint64_t(n)).status == Status::ok ? 1 : 0;
            static_cast<void>(objects.find(n % 400));
        }
    });
    MUST(put - left == objects.size() && objects.counts().ended > 0);
}

int main(int argc, char **argv) {
    const uint64_t less = argc > 1 ? std::strtoull(argv[1], nullptr, 10) : 1;
    all_leave<Sessions>();
    all_leave<Objects>();
    all_leave_with_updates<Sessions>();
    all_leave_with_updates<Objects>();
    for (const cefrodil::MapOptions &options : {cefrodil::MapOptions{100, 1}, {1000, 1}}) {
        ended_ones_first<Sessions>(options);
        ended_ones_first<Objects>(options);
    }
    other_ends<Sessions>();
    other_ends<Objects>();
    locked_ones_stay();
    listeners();
    threads(20000 / less);
    return outcome("ended");
}
