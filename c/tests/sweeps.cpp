// for_each and erase_if of all maps: what they show, what they remove, and what they see of other calls. Argument: by how much less to do.
#include "cefrodil_object_map.hpp"
#include "must.h"
#include <cstdlib>
#include <map>
#include <thread>

using cefrodil::Erased;
using cefrodil::Status;
using std::chrono::nanoseconds;

// What a map shows. A key that is shown twice fails.
template <class K, class Map> static std::map<K, uint64_t> shown(const Map &map) {
    std::map<K, uint64_t> all;
    MUST(map.for_each([&](const K &key, const uint64_t &value) { MUST(all.emplace(key, value).second); }) == Status::ok);
    return all;
}

static bool is_odd(uint64_t value) { return value % 2 == 1; }

// Each entry is shown once, and those leave that the predicate accepts.
template <class Map> static void shows_and_erases(Map &&map) {
    const auto odd = [](const auto &, const uint64_t &value) { return is_odd(value); };
    const Erased closed = map.erase_if(odd);
    MUST(closed.status == Status::closed && closed.count == 0 && map.for_each([](const auto &, const auto &) {}) == Status::closed);
    MUST(map.open({1000}) == Status::ok && shown<uint64_t>(map).empty() && map.erase_if(odd).status == Status::ok);
    std::map<uint64_t, uint64_t> model;
    for (uint64_t key = 0; key < 500; key++) {
        const uint64_t number = key * 0x9e3779b97f4a7c15;
        MUST(map.insert(number, key).status == Status::ok);
        model[number] = key;
    }
    MUST(shown<uint64_t>(map) == model);
    const Erased erased = map.erase_if([&](const uint64_t &key, const uint64_t &value) {
        MUST(model.at(key) == value);
        return is_odd(value);
    });
    MUST(erased.status == Status::ok && erased.count == 250 && map.size() == 250);
    MUST(!map.contains(0x9e3779b97f4a7c15) && map.contains(0) && shown<uint64_t>(map).size() == 250);
    // What invalidate_all has ended is neither shown nor asked of.
    MUST(map.invalidate_all() == Status::ok && shown<uint64_t>(map).empty() && map.insert(1, 1).status == Status::ok);
    MUST((shown<uint64_t>(map) == std::map<uint64_t, uint64_t>{{1, 1}}) && map.erase_if(odd).count == 1 && !map.contains(1));
}

// What has expired is neither shown nor asked of, and the time to idle goes on of what is shown.
template <class Map, class Open> static void leaves_what_expired(Map &&map, Open open) {
    std::atomic<int64_t> now{0};
    MUST(open(map, cefrodil::Lives{cefrodil::forever, nanoseconds(1000), [&] { return nanoseconds(now.load()); }}) == Status::ok);
    MUST(map.insert(1, 1).status == Status::ok && map.insert_for(2, 2, nanoseconds(10)).status == Status::ok);
    now = 900;
    MUST((shown<uint64_t>(map) == std::map<uint64_t, uint64_t>{{1, 1}}));
    MUST(map.erase_if([](const auto &, const uint64_t &value) { return value == 2; }).count == 0 && map.size() == 2);
    now = 1001;
    MUST(shown<uint64_t>(map).empty() && !map.contains(1));
}

// Keys of other types that a map of values gives back.
static void keys_of_a_map() {
    enum class Small : int8_t { one = -1, two = 2 };
    struct Pair {
        uint32_t file, page;
        bool operator<(const Pair &other) const { return file != other.file ? file < other.file : page < other.page; }
        bool operator==(const Pair &other) const { return file == other.file && page == other.page; }
    };
    cefrodil::map<Small, uint64_t> small;
    MUST(small.open({10}) == Status::ok && small.insert(Small::one, 1).status == Status::ok && small.insert(Small::two, 2).status == Status::ok);
    MUST((shown<Small>(small) == std::map<Small, uint64_t>{{Small::one, 1}, {Small::two, 2}}));
    cefrodil::map<Pair, uint64_t> pages;
    MUST(pages.open({100}) == Status::ok);
    for (uint32_t n = 0; n < 30; n++) {
        MUST(pages.insert({n % 3, n}, n).status == Status::ok);
    }
    MUST(pages.erase_if([](const Pair &page, const uint64_t &) { return page.file == 1; }).count == 10 && pages.size() == 20);
    MUST(pages.contains({0, 0}) && !pages.contains({1, 1}) && shown<Pair>(pages).count({2, 2}) == 1);
}

// The listener hears of what is removed. A function may call the map: what was changed since the list is asked of anew.
static void calls_within() {
    std::vector<cefrodil::Left> heard;
    cefrodil::object_map<uint64_t, uint64_t> map;
    MUST(map.open({100}, [&](const uint64_t &, const uint64_t &, cefrodil::Left why) { heard.push_back(why); }) == Status::ok);
    MUST(map.insert(1, 10).status == Status::ok && map.insert(2, 21).status == Status::ok);
    int asked = 0;
    const Erased erased = map.erase_if([&](const uint64_t &key, const uint64_t &value) {
        if (key == 1 && asked++ == 0) {
            MUST(map.insert_or_assign(1, 11).renewed);
            return true;
        }
        return key == 1 && value == 11;
    });
    MUST(erased.status == Status::ok && erased.count == 1 && asked == 2 && !map.contains(1) && map.contains(2));
    MUST((heard == std::vector<cefrodil::Left>{cefrodil::Left::replaced, cefrodil::Left::removed}));
    // A value that was being computed is not put: it may be of what was to leave.
    const auto computed = map.find_or_compute(3, [&] { return map.erase_if([](const auto &, const auto &) { return false; }).count; });
    MUST(computed.status == Status::stale && !map.contains(3));
    // What is shown stays while it is, though others remove it.
    const auto erase = [&](const uint64_t &key, const uint64_t &value) { MUST(map.erase(key) == Status::ok && map.free_unused() == 0 && value == 21); };
    MUST(map.for_each(erase) == Status::ok && map.free_unused() == 3);
#ifdef __cpp_exceptions
    MUST(map.insert(4, 4).status == Status::ok);
    try {
        static_cast<void>(map.erase_if([](const auto &, const auto &) -> bool { throw 1; }));
        MUST(false);
    } catch (int) {
    }
    MUST(map.find(4) == 4u && map.erase(4) == Status::ok && map.free_unused() == 1);
#endif
}

// What was listed stays until all of it has been shown, though it is removed at the first call of the function.
static void all_is_shown() {
    cefrodil::object_map<uint64_t, uint64_t> map;
    MUST(map.open({100}) == Status::ok);
    for (uint64_t key = 0; key < 10; key++) {
        MUST(map.insert(key, uint64_t(key)).status == Status::ok);
    }
    int shown = 0;
    const auto see = [&](const uint64_t &, const uint64_t &) { MUST((shown++ != 0 || map.clear() == Status::ok) && map.free_unused() == 0); };
    MUST(map.for_each(see) == Status::ok && shown == 10 && map.free_unused() == 10);
}

// If another write is first at each try, erase_if says so.
template <class Map> static void others_are_first(Map &&map) {
    MUST(map.open({100, 1, 3, 5}) == Status::ok && map.insert(1, uint64_t(1)).status == Status::ok);
    int asked = 0;
    const Erased erased = map.erase_if([&](const uint64_t &key, const uint64_t &) { return asked++, map.insert_or_assign(key, uint64_t(2)).renewed; });
    MUST(erased.status == Status::held && erased.count == 0 && asked == 6 && map.contains(1));
}

// Beside threads that put and remove, each key that stays is shown once, with one of its values, and no accepted one is left at the end.
template <class Map> static void beside_writers(Map &&map, long less) {
    MUST(map.open({2000, 4}) == Status::ok);
    for (uint64_t key = 0; key < 100; key++) {
        MUST(map.insert(key, key).status == Status::ok);
    }
    std::atomic<bool> over{false};
    std::vector<std::thread> running;
    for (uint64_t first : {0, 1}) {
        running.emplace_back([&, first] {
            for (uint64_t n = 0; !over; n++) {
                const uint64_t key = n % 100, other = 1000 + n % 50 * 2 + first;
                if (n % 3 == 0 && key % 2 == first) {
                    static_cast<void>(map.insert_or_assign(key, key + 1000 * (n % 7)));
                } else {
                    static_cast<void>(n % 2 == 0 ? map.insert_or_assign(other, other).status : map.erase(other));
                }
            }
        });
    }
    for (long n = 0; n < 300 / less; n++) {
        uint64_t stay = 0;
        for (const auto &[key, value] : shown<uint64_t>(map)) {
            MUST(value % 1000 == key % 1000);
            stay += key < 100;
        }
        MUST(stay == 100);
        static_cast<void>(map.erase_if([](const uint64_t &key, const uint64_t &) { return key >= 1000; }));
    }
    over = true;
    std::for_each(running.begin(), running.end(), [](std::thread &thread) { thread.join(); });
    MUST(map.erase_if([](const uint64_t &key, const uint64_t &) { return key >= 1000; }).status == Status::ok && map.size() == 100);
}

int main(int argc, char **argv) {
    const long less = argc > 1 ? std::atol(argv[1]) : 1;
    shows_and_erases(cefrodil::map<uint64_t, uint64_t>());
    shows_and_erases(cefrodil::timed_map<uint64_t, uint64_t>());
    shows_and_erases(cefrodil::object_map<uint64_t, uint64_t>());
    leaves_what_expired(cefrodil::timed_map<uint64_t, uint64_t>(), [](auto &map, const cefrodil::Lives &lives) { return map.open({100}, lives); });
    leaves_what_expired(cefrodil::object_map<uint64_t, uint64_t>(), [](auto &map, const cefrodil::Lives &lives) {
        cefrodil::ObjectRules<uint64_t, uint64_t> rules;
        rules.lives = lives;
        return map.open({100}, rules);
    });
    keys_of_a_map();
    calls_within();
    all_is_shown();
    others_are_first(cefrodil::map<uint64_t, uint64_t>());
    others_are_first(cefrodil::object_map<uint64_t, uint64_t>());
    beside_writers(cefrodil::map<uint64_t, uint64_t>(), less);
    beside_writers(cefrodil::object_map<uint64_t, uint64_t>(), less);
    return outcome("sweeps");
}
