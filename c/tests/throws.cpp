// What a throw of the user's types and functions leaves behind in a map of objects: no object is lost, the listener hears of each that has left, and the
// bound on weights is kept.
#include "cefrodil_object_map.hpp"
#include "must.h"
#include <stdexcept>

using cefrodil::Left;
using cefrodil::Status;

// So many of these live.
static int living = 0;
struct Weight {
    int number;
    explicit Weight(int its_number) : number(its_number) { living++; }
    Weight(const Weight &other) : number(other.number) { living++; }
    Weight(Weight &&other) noexcept : number(other.number) { living++; }
    Weight &operator=(const Weight &) = default;
    ~Weight() { living--; }
};

// It throws once, after so many other calls.
static int others = -1;
static void may_throw() {
    if (others >= 0 && others-- == 0) {
        throw std::runtime_error("as asked for");
    }
}
struct Equal {
    bool operator()(int one, int other) const {
        may_throw();
        return one == other;
    }
};

using Map = cefrodil::object_map<int, Weight, cefrodil::SipHash<int>, Equal>;

template <class Call> static bool throws(int after, Call call) {
    others = after;
    try {
        call();
    } catch (const std::runtime_error &) {
        return true;
    }
    others = -1;
    return false;
}

// With ten objects of 10, which is the bound.
static void open(Map &map, int &heard) {
    Map::Rules rules;
    rules.weigher = [](int, const Weight &value) {
        may_throw();
        return static_cast<uint64_t>(value.number);
    };
    rules.listener = [&](int, const Weight &, Left) { heard++; };
    rules.most_weight = 100;
    MUST(map.open({100}, rules) == Status::ok);
    for (int key = 0; key < 10; key++) {
        MUST(map.insert(key, Weight(10)).status == Status::ok);
    }
}
static int value_of(const Map &map, int key) {
    const std::optional<Weight> found = map.find(key);
    return found ? found->number : 0;
}

// The value was put, and what it replaced has left. So have others, for the bound.
static void equal_throws_after_a_put() {
    int heard = 0;
    Map map;
    open(map, heard);
    MUST(throws(1, [&] { static_cast<void>(map.insert_or_assign(3, Weight(90))); }));
    MUST(value_of(map, 3) == 90 && map.weight() <= 100 && heard == 10 - static_cast<int>(map.size()) + 1);
    static_cast<void>(map.free_unused());
    MUST(living == static_cast<int>(map.size()) && map.waiting() == 0);
}

// The map is as it was.
static void nothing_is_changed() {
    int heard = 0;
    Map map;
    open(map, heard);
    const auto compute = [] { return Weight(1); };
    const auto fails = []() -> Weight { throw std::runtime_error("as asked for"); };
    // The weigher, and then the comparison.
    MUST(throws(0, [&] { static_cast<void>(map.insert(10, Weight(1))); }) && throws(0, [&] { static_cast<void>(map.insert_or_assign(3, Weight(1))); }));
    MUST(throws(1, [&] { static_cast<void>(map.insert(3, Weight(1))); }) && throws(0, [&] { static_cast<void>(map.find(3)); }));
    MUST(throws(0, [&] { static_cast<void>(map.erase(3)); }) && throws(0, [&] { static_cast<void>(map.find_or_compute(10, compute)); }));
    MUST(throws(-1, [&] { static_cast<void>(map.find_or_compute(10, fails)); }));
    MUST(throws(-1, [&] { static_cast<void>(map.update(3, [&](const Weight &) { return fails(); })); }));
    for (int key = 0; key < 10; key++) {
        MUST(value_of(map, key) == 10);
    }
    MUST(map.size() == 10 && map.weight() == 100 && heard == 0 && living == 10);
    // No call waits for one that has thrown.
    MUST(map.erase(0) == Status::ok && map.find_or_compute(10, compute).status == Status::ok && map.update(10, [](const Weight &) { return Weight(2); }) == Status::ok);
}

// All keys have one number, so the key that is there is compared.
struct One {
    cefrodil::HashPair operator()(int, const cefrodil::HashSecret &) const { return {1, 2}; }
};

// Each comparison of a computation throws: that of its lookup, of the second one, and before its put.
static void a_comparison_of_a_computation_throws() {
    const auto compute = [] { return Weight(2); };
    for (int after = 0; after < 3; after++) {
        cefrodil::object_map<int, Weight, One, Equal> map;
        MUST(map.open({100}) == Status::ok && map.insert(1, Weight(1)).status == Status::ok);
        MUST(throws(after, [&] { static_cast<void>(map.find_or_compute(2, compute)); }) && living == 1);
        MUST(map.find(1)->number == 1 && map.find_or_compute(2, compute).status == Status::ok && map.find(2)->number == 2);
    }
}

// The key is removed.
static void a_removal_shows_the_value_and_throws() {
    int heard = 0;
    Map map;
    open(map, heard);
    MUST(throws(-1, [&] { static_cast<void>(map.erase(3, [](const Weight &) { throw std::runtime_error("as asked for"); })); }));
    MUST(value_of(map, 3) == 0 && map.weight() == 90 && heard == 1);
}

int main() {
    equal_throws_after_a_put();
    nothing_is_changed();
    a_comparison_of_a_computation_throws();
    a_removal_shows_the_value_and_throws();
    MUST(living == 0);
    return outcome("throws");
}
