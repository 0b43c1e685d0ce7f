// invalidate_all of both maps: nothing is found that was put before, and all that is put afterwards is. Argument: by how much less to do.
#include "cefrodil_object_map.hpp"
#include "must.h"
#include <algorithm>
#include <cstdlib>

using cefrodil::Left;
using cefrodil::Status;
using Map = cefrodil::map<uint64_t, uint64_t>;
using Objects = cefrodil::object_map<uint64_t, uint64_t>;

// All keys have few numbers in the index.
struct Meeting {
    cefrodil::HashPair operator()(const uint64_t &key, const cefrodil::HashSecret &) const noexcept { return {key % 3, key}; }
};

static Status update(Map &map, uint64_t key) {
    return map.update(key, [](uint64_t old) { return old + 1; }).status;
}
static Status update(Objects &map, uint64_t key) {
    return map.update(key, [](uint64_t old) { return old + 1; });
}

// All calls take what was put before for absent.
template <class Any> static void absent() {
    Any map;
    MUST(map.invalidate_all() == Status::closed && map.open({1000}) == Status::ok && map.invalidate_all() == Status::ok);
    for (uint64_t key = 0; key < 500; key++) {
        MUST(map.insert(key, uint64_t(key)).status == Status::ok);
    }
    for (uint64_t round = 1; round < 5; round++) {
        MUST(map.contains(1) && map.invalidate_all() == Status::ok && map.size() == 500);
        for (uint64_t key = 0; key < 500; key++) {
            MUST(!map.find(key) && !map.contains(key));
        }
        MUST(update(map, 1) == Status::absent && map.erase(2) == Status::absent && map.size() >= 499);
        MUST(map.find_or_compute(3, [] { return uint64_t(7); }).status == Status::ok && map.find(3) == 7u);
        MUST(map.insert(3, 0).status == Status::present && map.erase(3) == Status::ok);
        for (uint64_t key = 0; key < 500; key++) {
            const auto stored = key % 2 == 0 ? map.insert(key, round * 1000 + key) : map.insert_or_assign(key, round * 1000 + key);
            MUST(stored.status == Status::ok && map.find(key) == round * 1000 + key);
        }
        MUST(map.insert(2, 0).status == Status::present && update(map, 1) == Status::ok && map.find(1) == round * 1000 + 2 && map.size() == 500);
        MUST(map.erase(2) == Status::ok && !map.contains(2) && map.insert(2, 3).status == Status::ok);
    }
    MUST(map.clear() == Status::ok && map.size() == 0);
    // A new map begins anew.
    MUST(map.close() == Status::ok && map.open({10}) == Status::ok && map.insert(1, 1).status == Status::ok && map.contains(1));
}

static void other_calls() {
    Map map;
    MUST(map.open({1000}) == Status::ok && map.insert(1, 1).status == Status::ok && map.insert(2, 2).status == Status::ok);
    const uint64_t keys[3] = {1, 2, 3};
    std::optional<uint64_t> values[3];
    MUST(map.find_many(keys, 3, values) == 2 && map.invalidate_all() == Status::ok && map.find_many(keys, 3, values) == 0);
    MUST(map.peek(1).status == Status::absent && map.get(1).status == Status::absent);
    MUST(map.update_or_insert(1, 10, [](uint64_t) { return uint64_t(0); }).value == 10u && map.find_many(keys, 3, values) == 1 && values[0] == 10u);
    MUST(map.find_or_compute(2, [] { return uint64_t(20); }).computed && map.find(2) == 20u);
    // In a full map, too.
    MUST(map.close() == Status::ok && map.open({100, 1}) == Status::ok);
    for (uint64_t key = 0; key < 200; key++) {
        MUST(map.insert(key, uint64_t(key)).status == Status::ok);
    }
    MUST(map.contains(199) && map.invalidate_all() == Status::ok);
    for (uint64_t key = 0; key < 200; key++) {
        MUST(!map.find(key) && (key % 50 != 0 || map.find_or_compute(key, [] { return uint64_t(7); }).computed));
    }
    MUST(map.find(150) == 7u && map.find(199) == std::nullopt);
}

// The listener hears why an object left, and erase_expired removes what is old.
static void left() {
    std::vector<std::pair<uint64_t, Left>> heard;
    Objects map;
    MUST(map.open({1000}, [&](const uint64_t &key, const uint64_t &, Left why) { heard.emplace_back(key, why); }) == Status::ok);
    MUST(map.insert(1, 1).status == Status::ok && map.insert(2, 2).status == Status::ok && map.invalidate_all() == Status::ok);
    MUST(map.insert(3, 3).status == Status::ok && map.insert(1, 10).status == Status::ok && map.insert_or_assign(3, 30).renewed);
    MUST(map.erase_expired() == Status::ok && map.size() == 2 && map.find(1) == 10u && map.find(3) == 30u);
    const std::vector<std::pair<uint64_t, Left>> expected{{1, Left::expired}, {3, Left::replaced}, {2, Left::expired}};
    MUST(heard == expected);
    // Two keys with one number.
    cefrodil::object_map<uint64_t, uint64_t, Meeting> meeting;
    MUST(meeting.open({100}) == Status::ok && meeting.insert(1, 1).status == Status::ok && meeting.invalidate_all() == Status::ok);
    MUST(meeting.insert(4, 4).status == Status::ok && !meeting.contains(1) && meeting.find(4) == 4u);
}

// What a call found before invalidate_all makes no value that is found afterwards.
template <class Any> static void outdated() {
    Any map;
    MUST(map.open({1000}) == Status::ok);
    const auto stale = map.find_or_compute(1, [&] { return static_cast<void>(map.invalidate_all()), uint64_t(1); });
    MUST(stale.status == Status::stale && stale.value == 1 && !map.contains(1));
    MUST(map.insert(1, 1).status == Status::ok);
    static_cast<void>(map.update(1, [&](uint64_t old) { return static_cast<void>(map.invalidate_all()), old; }));
    MUST(!map.contains(1));
    // Nor if the function might decline: then it runs before the value is made.
    MUST(map.insert(3, 1).status == Status::ok);
    static_cast<void>(map.update(3, [&](uint64_t old) { return static_cast<void>(map.invalidate_all()), std::optional<uint64_t>(old); }));
    MUST(!map.contains(3));
    // A value that was put meanwhile is updated.
    MUST(map.insert(2, 1).status == Status::ok);
    static_cast<void>(map.update(2, [&](uint64_t old) {
        if (old == 1) {
            MUST(map.invalidate_all() == Status::ok && map.insert(2, 10).status == Status::ok);
        }
        return old + 1;
    }));
    MUST(map.find(2) == 11u);
}

// A value whose constructor does something between the begin of a put and the put itself.
struct Acting {
    std::function<void()> act;
    explicit Acting(std::function<void()> its_act) : act(std::move(its_act)) {}
    Acting(Acting &&other) : act(nullptr) {
        if (other.act) {
            std::exchange(other.act, nullptr)();
        }
    }
    Acting &operator=(Acting &&) = default;
};

// A put that began before invalidate_all, and ends after a later one of the same key.
static void crossing() {
    cefrodil::object_map<int, Acting> map;
    MUST(map.open({100}) == Status::ok);
    const auto put_later = [&] { MUST(map.invalidate_all() == Status::ok && map.insert(1, Acting(nullptr)).status == Status::ok); };
    MUST(map.insert_or_assign(1, Acting(put_later)).renewed && map.contains(1));
    MUST(map.insert(1, Acting(put_later)).status == Status::present && map.contains(1) && map.size() == 1);
}

// One thread changes the store and invalidates all. No value that others compute is older than the store afterwards, and all that it puts is found.
template <class Any> static void threads(uint64_t rounds) {
    Any map;
    MUST(map.open({1000}) == Status::ok);
    std::atomic<uint64_t> store{1}, wrong{0}, hits{0};
    std::atomic<bool> ends{false};
    const auto compute = [&](uint64_t drawn) {
        while (!ends) {
            drawn = drawn * 6364136223846793005 + 1442695040888963407;
            const uint64_t before = store, key = drawn >> 60;
            const auto found = map.find_or_compute(key, [&] { return store.load(); });
            hits += !found.computed;
            static_cast<void>(map.insert_or_assign(100 + key, uint64_t(before)).status);
        }
    };
    std::vector<std::thread> running;
    for (uint64_t n = 1; n <= 2; n++) {
        running.emplace_back(compute, n);
    }
    for (uint64_t version = 2; version < rounds + 2; version++) {
        store = version;
        MUST(map.invalidate_all() == Status::ok);
        for (uint64_t key = 0; key < 16; key++) {
            wrong += map.find(key).value_or(version) != version;
            wrong += map.insert_or_assign(200 + key, uint64_t(version)).status != Status::ok || map.find(200 + key) != version;
        }
    }
    ends = true;
    std::for_each(running.begin(), running.end(), [](std::thread &thread) { thread.join(); });
    MUST(wrong == 0 && hits > 0);
}

int main(int argc, char **argv) {
    const uint64_t less = argc > 1 ? std::strtoull(argv[1], nullptr, 10) : 1;
    absent<Map>();
    absent<Objects>();
    other_calls();
    left();
    outdated<Map>();
    outdated<Objects>();
    crossing();
    threads<Map>(20000 / less);
    threads<Objects>(20000 / less);
    return outcome("invalidate");
}
