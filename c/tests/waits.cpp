// Calls of a map that other threads keep from their turn. They are repeated: at first they spin, then they yield, and then they sleep. No other
// thread is needed: functions stand in for some calls of the index (stand_ins.hpp) and of the system.
#include "must.h"
#include "stand_ins.hpp"
// Behind it, so that its functions stand in for those that objects call, too.
#include "cefrodil_object_map.hpp"
#include <sched.h>
#include <time.h>

using cefrodil::Status;

static uint64_t yields = 0, nanoseconds = 0;

extern "C" int sched_yield() noexcept {
    yields++;
    return 0;
}
extern "C" int nanosleep(const struct timespec *time, struct timespec *) {
    nanoseconds += uint64_t(time->tv_sec) * 1000000000 + uint64_t(time->tv_nsec);
    return 0;
}

// By so many seconds the clocks are ahead of where they began. They stand still, however slow the machine is.
static time_t ahead = 0;

extern "C" int clock_gettime(clockid_t, struct timespec *time) noexcept {
    *time = {1000 + ahead, 0};
    return 0;
}

// Whether the waits since the last call of this were so many yields, and so many sleeps of 100 microseconds.
static bool waited(uint64_t yielded, uint64_t slept) {
    return std::exchange(yields, 0) == yielded && std::exchange(nanoseconds, 0) == 100000 * slept;
}

static void waits() {
    for (uint32_t repeat = 0; repeat < 300; repeat++) {
        cefrodil::inside::wait_before(repeat);
        MUST(waited(repeat >= 7 && repeat < 200, repeat >= 200));
    }
}

// A call that is disturbed each time is made once, and then repeated so often.
static void calls(const cefrodil::MapOptions &options, uint32_t tries, uint64_t yielded, uint64_t slept) {
    cefrodil::map<int, int> map;
    MUST(options.tries == tries && map.open(options) == Status::ok);
    disturb(0);
    MUST(map.insert_or_assign(1, 10).status == Status::ok && made == 1 && waited(0, 0));
    disturb(7);
    MUST(map.insert_or_assign(1, 11).status == Status::ok && made == 8 && waited(0, 0));
    disturb(tries);
    MUST(map.insert_or_assign(1, 12).status == Status::ok && made == tries + 1 && waited(yielded, slept));
    disturb(tries + 1);
    MUST(map.insert_or_assign(1, 13).status == Status::held && made == tries + 1 && waited(yielded, slept));
    MUST(map.find(1) == 12);
}

// A lookup that stays busy ends sooner than one that belongs to a write.
static void lookups() {
    cefrodil::map<int, int> map;
    MUST(map.open({100}) == Status::ok && map.insert(1, 10).status == Status::ok);
    disturb(1000);
    MUST(map.find(1) == 10 && made == 1001 && waited(193, 800));
    disturb(1001);
    MUST(map.get(1).status == Status::busy && made == 1001 && waited(193, 800));
    disturb(10000);
    MUST(map.erase(1) == Status::ok && made == 10001 && waited(193, 9800));
    MUST(map.insert(1, 10).status == Status::ok);
    disturb(10001);
    MUST(map.erase(1) == Status::busy && made == 10001 && waited(193, 9800) && map.find(1) == 10);
    // Whether a key is there is not known if its lookup stays busy.
    disturb(10001);
    MUST(map.insert(1, 11).status == Status::busy && made == 10001 && waited(193, 9800) && map.find(1) == 10);
    disturb(1001);
    MUST(!map.contains(1) && made == 1001 && waited(193, 800) && map.contains(1));
    // A computation that found the key busy at first looks again before it computes.
    disturb(1001);
    const auto found = map.find_or_compute(1, [] { return 99; });
    MUST(found.status == Status::ok && found.value == 10 && !found.computed && made == 1002 && waited(193, 800));
}

// A thread may note that it removed a key before the one that put it has noted that. There are never fewer keys than none.
static void removed_before_it_counts() {
    cefrodil::inside::Turns<1> turns;
    MUST(turns.open(100, 1, 8, 0) == Status::ok);
    const auto add = [&](int64_t more) { turns.call([&](cefrodil::inside::Slot<1> &slot) { slot.add(more); }); };
    add(-1);
    MUST(turns.keys() == 0);
    add(2);
    MUST(turns.keys() == 1);
}

// If one removal is held, `clear` ends with that.
static void held_clear() {
    cefrodil::map<int, int> map;
    MUST(map.open({100, 1, 8, 0}) == Status::ok);
    for (int key = 0; key < 3; key++) {
        MUST(map.insert(key, key).status == Status::ok);
    }
    held_removals = 1;
    disturb(0);
    MUST(map.clear() == Status::held && made == 1 && held_removals == 0 && map.size() == 3);
    MUST(map.clear() == Status::ok && made == 5 && map.size() == 0);
    MUST(map.insert(1, 10).status == Status::ok);
    disturb(1);
    MUST(map.clear() == Status::held && made == 1 && map.size() == 1 && map.find(1) == 10);
}

// A list that is held is repeated, and so is a removal.
static void clear_that_waits() {
    cefrodil::map<int, int> map;
    MUST(map.open({100, 1, 8, 50}) == Status::ok && map.insert(1, 10).status == Status::ok);
    disturb(50);
    MUST(map.clear() == Status::ok && made == 52 && waited(43, 0) && map.size() == 0);
    MUST(map.insert(1, 10).status == Status::ok);
    disturb(51);
    MUST(map.clear() == Status::held && made == 51 && waited(43, 0) && map.find(1) == 10);
    held_removals = 50;
    disturb(0);
    MUST(map.clear() == Status::ok && made == 2 && held_removals == 0 && waited(43, 0) && map.size() == 0);
}

// Of many keys, those that are busy are looked up again.
static void many_keys() {
    cefrodil::map<int, int> map;
    MUST(map.open({100}) == Status::ok && map.insert(1, 10).status == Status::ok && map.insert(2, 20).status == Status::ok);
    int keys[50];
    std::optional<int> values[50];
    for (int i = 0; i < 50; i++) {
        keys[i] = 1 + i % 3;
    }
    // So many keys are busy, of the first 32 that one call looks up. Then the first key is, again and again.
    const struct {
        uint32_t busy;
        uint64_t yields, sleeps;
    } rows[] = {{0, 0, 0}, {1, 0, 0}, {31, 0, 0}, {32, 0, 0}, {33, 0, 0}, {34, 0, 0}, {100, 61, 0}, {1032, 193, 800}};
    for (const auto &row : rows) {
        disturb(row.busy);
        MUST(map.find_many(keys, 50, values) == 34 && made == 50 + row.busy && waited(row.yields, row.sleeps));
        for (int i = 0; i < 50; i++) {
            MUST(keys[i] == 3 ? !values[i] : values[i] == 10 * keys[i]);
        }
    }
    // One that stays busy is a miss.
    disturb(1033);
    MUST(map.find_many(keys, 50, values) == 33 && !values[0] && values[1] == 20 && made == 50 + 1032 && waited(193, 800));
    // It counts as neither a hit nor a miss, and once.
    const cefrodil::Counts counts = map.meter().counts();
    MUST(counts.busy == 1 && counts.hits == 8 * 34 + 33 && counts.misses == 9 * 16);
}

// So are many objects.
static void many_objects() {
    cefrodil::object_map<int, int> map;
    const int keys[] = {1, 2, 3};
    std::optional<int> values[3];
    MUST(map.open({100}) == Status::ok && map.insert(1, 10).status == Status::ok && map.insert(2, 20).status == Status::ok);
    disturb(3);
    MUST(map.find_many(keys, 3, values) == 2 && values[0] == 10 && values[1] == 20 && !values[2] && made == 3 + 3);
}

static bool counts(const cefrodil::map<int, int> &map, uint64_t given_up, uint64_t stalled) {
    const cefrodil::Counts all = map.meter().counts();
    return all.given_up == given_up && all.stalled == stalled;
}

// A call that slept and gave up begins a stall. It lasts until no call gives up for ten seconds.
static void stalls() {
    cefrodil::map<int, int> map;
    MUST(map.open({100}) == Status::ok && map.insert(1, 10).status == Status::ok && counts(map, 0, 0));
    disturb(10001);
    MUST(map.insert_or_assign(1, 11).status == Status::held && counts(map, 1, 0));
    ahead += 9;
    disturb(1001);
    MUST(!map.find(1) && counts(map, 2, 9));
    disturb(10000);
    MUST(map.erase(1) == Status::ok && counts(map, 2, 9));
    ahead += 9;
    MUST(map.insert(1, 10).status == Status::ok && counts(map, 2, 18));
    disturb(10001);
    MUST(map.insert(1, 10).status == Status::busy && counts(map, 3, 18));
    ahead += 12;
    MUST(counts(map, 3, 0));
    disturb(10001);
    MUST(map.insert_or_assign(1, 11).status == Status::held && counts(map, 4, 0));
    ahead += 3;
    MUST(counts(map, 4, 3));
    disturbed = 0;
}

// Calls that are rare note the sums of lookups. So what was found more than a minute ago does not count.
template <class Call> static void noted_by(Call call) {
    cefrodil::map<int, int> map;
    MUST(map.open({100}) == Status::ok && map.insert(1, 10).status == Status::ok && map.find(1) == 10 && map.find(1) == 10);
    ahead += 5;
    call(map);
    ahead += 60;
    MUST(!map.find(3) && map.hit_rate_of_last_minute() == 0);
}

static void last_minute() {
    using Numbers = cefrodil::map<int, int>;
    noted_by([](Numbers &map) { MUST(map.find_or_compute(2, [] { return 20; }).computed); });
    noted_by([](Numbers &map) { MUST(map.invalidate_all() == Status::ok); });
    noted_by([](Numbers &map) { MUST(map.clear() == Status::ok); });
    // In the first minute all lookups count.
    Numbers map;
    MUST(map.open({100}) == Status::ok && map.insert(1, 10).status == Status::ok && map.find(1) == 10);
    ahead += 5;
    MUST(map.hit_rate_of_last_minute() == 1 && !map.find(3) && map.hit_rate_of_last_minute() == 0.5);
}

// A call that tries too few times to sleep says little of the others.
static void short_calls() {
    cefrodil::map<int, int> map;
    MUST(map.open({100, 1, 64, 200}) == Status::ok && map.insert(1, 10).status == Status::ok);
    disturb(201);
    MUST(map.insert_or_assign(1, 11).status == Status::held && counts(map, 0, 0));
    disturb(201);
    MUST(!map.find(1) && counts(map, 0, 0));
    yields = 0, nanoseconds = 0;
}

int main() {
    waits();
    stalls();
    last_minute();
    short_calls();
    calls({100}, 10000, 193, 9800);
    calls({100, 1, 64, 50}, 50, 43, 0);
    lookups();
    removed_before_it_counts();
    held_clear();
    clear_that_waits();
    many_keys();
    many_objects();
    return outcome("waits");
}
