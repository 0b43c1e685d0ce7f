// Functions that decline to make a value, and lookups of many keys of an object_map.
#include "cefrodil_object_map.hpp"
#include "must.h"
#include <array>
#include <string>

using cefrodil::Status;

// A map is left as it was by a function that declines, and computes again for the next caller.
template <class Map> static void a_function_declines(typename Map::Key key) {
    using Value = std::decay_t<decltype(*std::declval<Map &>().find(key))>;
    using Maybe = std::optional<Value>;
    Map map;
    const auto closed = map.find_or_compute(key, [] { return Maybe(); });
    MUST(closed.status == Status::closed && !closed.value && map.open({1000}) == Status::ok);
    const auto declined = map.find_or_compute(key, [] { return Maybe(); });
    MUST(declined.status == Status::declined && !declined.value && declined.computed && map.size() == 0);
    const auto made = map.find_or_compute(key, [] { return Maybe(Value(5)); });
    MUST(made.status == Status::ok && made.value == Value(5) && made.computed);
    const auto found = map.find_or_compute(key, [] { return Maybe(); });
    MUST(found.status == Status::ok && found.value == Value(5) && !found.computed);
    const auto is_declined = [](const auto &answer) { return answer == Status::declined; };
    const auto declines = [](const Value &) { return Maybe(); };
    if constexpr (std::is_same_v<decltype(map.update(key, declines)), Status>) {
        MUST(is_declined(map.update(key, declines)));
    } else {
        MUST(is_declined(map.update(key, declines).status) && !map.update(key, declines).value);
        MUST(is_declined(map.update_or_insert(key, Value(1), declines).status));
    }
    MUST(map.find(key) == Value(5));
}

// A function that asks for its own key computes for itself, and the value of the outer one is put.
template <class Map> static void within_itself() {
    Map map;
    MUST(map.open({1000}) == Status::ok);
    const auto outer = map.find_or_compute(1, [&] {
        const auto inner = map.find_or_compute(1, [] { return uint64_t(2); });
        MUST(inner.status == Status::stale && inner.computed && inner.value == 2 && map.size() == 0);
        return inner.value + map.find_or_compute(2, [] { return uint64_t(1); }).value;
    });
    MUST(outer.status == Status::ok && outer.value == 3 && map.find(1) == 3u && map.find(2) == 1u);
}

// An update with a time of its own that declines leaves the entry's.
template <class Map> static void an_update_for_declines() {
    Map map;
    const auto declines = [](const uint64_t &) { return std::optional<uint64_t>(); };
    MUST(map.open({1000}) == Status::ok && map.insert_for(1, 10, std::chrono::hours(1)).status == Status::ok);
    const auto answer = map.update_for(1, std::chrono::nanoseconds(0), declines);
    if constexpr (std::is_same_v<decltype(answer), const Status>) {
        MUST(answer == Status::declined);
    } else {
        MUST(answer.status == Status::declined && !answer.value);
    }
    MUST(map.find(1) == 10u);
}

// All keys have one hash. So one of them is there, and it is no other's.
struct Meeting {
    cefrodil::HashPair operator()(const uint64_t &, const cefrodil::HashSecret &) const noexcept { return {7, 7}; }
};
static void keys_of_one_hash() {
    cefrodil::object_map<uint64_t, uint64_t, Meeting> map;
    const std::array<uint64_t, 3> keys{1, 2, 3};
    size_t seen = 0;
    MUST(map.open({1000}) == Status::ok && map.insert(2, 20).status == Status::ok);
    MUST(map.look_many(keys.data(), 3, [&](size_t n, const uint64_t &value) { seen += n == 1 && value == 20; }) == 1 && seen == 1);
    MUST(map.meter().counts().hits == 1 && map.meter().counts().misses == 2);
}

// What is computed while all is removed may be older, so it is not put.
template <class Any> static void cleared_meanwhile() {
    Any map;
    MUST(map.open({100}) == Status::ok);
    const auto compute = [&] {
        MUST(map.clear() == Status::ok);
        return uint64_t(10);
    };
    const auto computed = map.find_or_compute(1, compute);
    MUST(computed.status == Status::stale && computed.value == 10 && !map.find(1));
}

static void many_objects() {
    cefrodil::object_map<std::string, std::string> map;
    std::array<std::string, 100> keys;
    std::array<std::optional<std::string>, 100> values;
    values[0] = "old";
    MUST(map.find_many(keys.data(), 1, values.data()) == 0 && !values[0] && map.open({1000}) == Status::ok);
    for (size_t n = 0; n < keys.size(); n++) {
        keys[n] = std::to_string(n);
        MUST(n % 3 == 0 || map.insert(keys[n], "value of " + keys[n]).status == Status::ok);
    }
    MUST(map.insert_or_assign_for(keys[1], "over", std::chrono::nanoseconds(0)).status == Status::ok);
    size_t last = 0, wrong = 0;
    const auto see = [&](size_t n, const std::string &value) {
        wrong += n <= last || value != "value of " + keys[n];
        last = n;
    };
    MUST(map.look_many(keys.data(), 100, see) == 65 && last == 98 && wrong == 0);
    MUST(map.meter().counts().hits == 65 && map.meter().counts().misses == 35);
    MUST(map.find_many(keys.data(), 100, values.data()) == 65 && values[98] == "value of 98" && !values[99] && !values[1] && !values[0]);
    MUST(map.find_many(keys.data(), 0, values.data()) == 0 && map.invalidate_all() == Status::ok && map.find_many(keys.data(), 100, values.data()) == 0);
}

int main() {
    a_function_declines<cefrodil::map<uint64_t, uint64_t>>(1);
    a_function_declines<cefrodil::timed_map<uint64_t, uint32_t>>(1);
    a_function_declines<cefrodil::object_map<uint64_t, uint64_t>>(1);
    within_itself<cefrodil::map<uint64_t, uint64_t>>();
    within_itself<cefrodil::timed_map<uint64_t, uint64_t>>();
    within_itself<cefrodil::object_map<uint64_t, uint64_t>>();
    an_update_for_declines<cefrodil::timed_map<uint64_t, uint64_t>>();
    an_update_for_declines<cefrodil::object_map<uint64_t, uint64_t>>();
    keys_of_one_hash();
    cleared_meanwhile<cefrodil::map<uint64_t, uint64_t>>();
    cleared_meanwhile<cefrodil::timed_map<uint64_t, uint64_t>>();
    many_objects();
    return outcome("computing");
}
