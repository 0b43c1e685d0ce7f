// A map of objects: values of any type and size, whose destructors are counted. Each object that enters the map is destroyed once, the listener hears
// of each that leaves, and a small map agrees with a model. Argument: by how much less to do.
#include "cefrodil_object_map.hpp"
#include "must.h"
#include "tracked.hpp"
#include <cstdlib>
#include <map>

using cefrodil::Left;
using cefrodil::object_map;
using cefrodil::Status;

// All keys have few numbers in the index.
struct Meeting {
    cefrodil::HashPair operator()(const uint64_t &key, const cefrodil::HashSecret &) const noexcept { return {key % 3, key}; }
};

static void any_types() {
    object_map<std::string, std::unique_ptr<std::string>> names;
    MUST(!names.is_open() && names.look("a", [](const auto &) {}) == Status::closed && names.erase("a") == Status::closed);
    MUST(names.insert("a", nullptr).status == Status::closed && names.size() == 0 && names.free_unused() == 0 && names.close() == Status::closed);
    MUST(names.open({100, 16, 0}) == Status::bad_handles && names.open({100, 3}) == Status::bad_shards && !names.is_open());
    MUST(names.open({100, 16, 4000000000}) == Status::bad_handles && names.open({0}) == Status::bad_items);
    MUST(names.open({100}) == Status::ok && names.open({100}) == Status::in_use);
    MUST(names.insert(std::string(1000, 'k'), std::make_unique<std::string>(100000, 'v')).status == Status::ok);
    size_t size = 0;
    MUST(names.look(std::string(1000, 'k'), [&](const auto &value) { size = value->size(); }) == Status::ok && size == 100000);
    MUST(names.look("k", [&](const auto &) { size = 0; }) == Status::absent && size == 100000 && names.contains(std::string(1000, 'k')));
    // What is refused is given back.
    auto refused = std::make_unique<std::string>("refused");
    MUST(names.insert(std::string(1000, 'k'), std::move(refused)).status == Status::present && refused && *refused == "refused");
    MUST(names.insert("k", std::move(refused)).status == Status::ok && !refused && names.size() == 2);

    object_map<uint64_t, std::shared_ptr<int>> shared;
    const auto seven = std::make_shared<int>(7);
    MUST(shared.open({100}) == Status::ok && shared.insert(1, seven).status == Status::ok && seven.use_count() == 2);
    std::optional<std::shared_ptr<int>> found = shared.find(1);
    MUST(found && **found == 7 && seven.use_count() == 3 && !shared.find(2));
    MUST(shared.erase(1) == Status::ok && shared.erase(1) == Status::absent && shared.free_unused() == 1 && seven.use_count() == 2);
    MUST(shared.insert(1, seven).status == Status::ok && shared.close() == Status::ok && seven.use_count() == 2);

    struct Large {
        std::array<uint64_t, 1000> words;
    };
    const Large of_three{{1, 2, 3}};
    object_map<int, Large> large;
    MUST(large.open({10}) == Status::ok && large.insert(-1, of_three).status == Status::ok && large.find(-1)->words[2] == 3);
}

static void statuses() {
    object_map<uint64_t, Tracked> map;
    MUST(map.open({100}) == Status::ok);
    cefrodil::Stored stored = map.insert(1, Tracked(10));
    MUST(stored.status == Status::ok && !stored.renewed && !stored.evicted && map.size() == 1);
    Tracked other(11);
    MUST(map.insert(1, std::move(other)).status == Status::present);
    stored = map.insert_or_assign(1, std::move(other));
    MUST(stored.status == Status::ok && stored.renewed && !stored.evicted && map.size() == 1);
    MUST(map.update(1, [](const Tracked &old) { return Tracked(old.number() + 1); }) == Status::ok);
    MUST(map.update(2, [](const Tracked &) { return Tracked(0); }) == Status::absent);
    uint64_t number = 0;
    MUST(map.look(1, [&](const Tracked &value) { number = value.number(); }) == Status::ok && number == 12);
    MUST(map.clear() == Status::ok && map.size() == 0 && !map.contains(1) && map.capacity() >= 100);
    MUST(map.free_unused() == 3 && living == 1);
}

// A find and a get copy the value once, and move it not at all.
static void copies_once() {
    struct Copied {
        int copies = 0, moves = 0;
        Copied() = default;
        Copied(const Copied &other) : copies(other.copies + 1), moves(other.moves) {}
        Copied(Copied &&other) noexcept : copies(other.copies), moves(other.moves + 1) {}
        Copied &operator=(Copied &&) = default;
    };
    object_map<int, Copied> map;
    const Copied first;
    MUST(map.open({100}) == Status::ok && map.insert(1, first).status == Status::ok);
    const std::optional<Copied> found = map.find(1);
    const cefrodil::Found<Copied> got = map.get(1), peeked = map.peek(1);
    for (const std::optional<Copied> *each : {&found, &got.value, &peeked.value}) {
        MUST(*each && (*each)->copies == 2 && (*each)->moves == 0);
    }
}

// Looks that copy, that are no use of a value, and that say why there is none.
static void looks() {
    object_map<uint64_t, std::string> closed, map;
    const auto see_none = [](const auto &) { MUST(false); };
    MUST(closed.get(1).status == Status::closed && closed.peek(1).status == Status::closed && closed.peek(1, see_none) == Status::closed);
    MUST(map.open({100, 1}) == Status::ok && map.get(1).status == Status::absent && map.peek(1, see_none) == Status::absent);
    MUST(map.insert(1, "one").status == Status::ok && map.get(1).value == "one" && map.peek(1).value == "one" && map.get(1).status == Status::ok);
    size_t size = 0;
    MUST(map.peek(1, [&](const std::string &value) { size = value.size(); }) == Status::ok && size == 3);
    MUST(map.invalidate_all() == Status::ok && map.peek(1).status == Status::absent && !map.peek(1).value);
    object_map<uint64_t, Tracked> tracked;
    MUST(tracked.open({100}) == Status::ok && tracked.insert(1, Tracked(5)).status == Status::ok);
    MUST(tracked.peek(1, [](const Tracked &value) { MUST(value.lives() && value.number() == 5); }) == Status::ok);
    // A peek is no use: of two objects that came first, that one leaves which nobody looked up.
    for (const bool is_peeked : {true, false}) {
        MUST(map.clear() == Status::ok && map.close() == Status::ok && map.open({100, 1}) == Status::ok);
        for (uint64_t key = 0; key < 100; key++) {
            MUST(map.insert(key, "some").status == Status::ok);
        }
        MUST((is_peeked ? map.peek(0) : map.get(0)).status == Status::ok && map.insert(100, "more").evicted && map.contains(0) != is_peeked);
    }
    // The status of two keys with one number.
    object_map<uint64_t, std::string, Meeting> meeting;
    MUST(meeting.open({100}) == Status::ok && meeting.insert(1, "one").status == Status::ok && meeting.peek(4).status == Status::absent);
}

// An update that makes no new value, and a removal that shows the old one.
static void declined_and_removed() {
    std::vector<Left> heard;
    object_map<uint64_t, std::unique_ptr<int>> map;
    using Next = std::optional<std::unique_ptr<int>>;
    MUST(map.open({100}, [&](const uint64_t &, const auto &, Left why) { heard.push_back(why); }) == Status::ok);
    MUST(map.insert(1, std::make_unique<int>(1)).status == Status::ok);
    const auto add_to_odd = [](const std::unique_ptr<int> &old) { return *old % 2 == 1 ? Next(std::make_unique<int>(*old + 1)) : Next(); };
    MUST(map.update(1, add_to_odd) == Status::ok && map.update(1, add_to_odd) == Status::declined && map.update(2, add_to_odd) == Status::absent);
    MUST(heard == std::vector<Left>{Left::replaced} && std::string(cefrodil::text(Status::declined)) == "the function made no new value");
    MUST(map.update_for(1, std::chrono::nanoseconds(0), add_to_odd) == Status::declined && map.contains(1));
    // A null pointer is a value.
    MUST(map.update(1, [](const auto &) { return std::unique_ptr<int>(); }) == Status::ok && map.look(1, [](const auto &now) { MUST(!now); }) == Status::ok);
    MUST(map.insert_or_assign(1, std::make_unique<int>(7)).renewed);
    heard.clear();
    int removed = 0;
    const auto see = [&](const std::unique_ptr<int> &value) { removed = *value, heard.push_back(Left::replaced); };
    MUST(map.erase(2, see) == Status::absent && removed == 0 && map.erase(1, see) == Status::ok && removed == 7 && !map.contains(1));
    MUST((heard == std::vector<Left>{Left::replaced, Left::removed}) && map.erase(1, see) == Status::absent);
    object_map<uint64_t, std::unique_ptr<int>> closed;
    MUST(closed.erase(1, see) == Status::closed && closed.update(1, add_to_odd) == Status::closed);
    MUST(map.free_unused() == 4 && map.size() == 0);
#ifdef __cpp_exceptions
    // The listener hears of it, and it is freed, though the function throws.
    MUST(map.insert(1, std::make_unique<int>(8)).status == Status::ok);
    heard.clear();
    try {
        static_cast<void>(map.erase(1, [](const auto &) { throw 1; }));
        MUST(false);
    } catch (int) {
    }
    MUST(!map.contains(1) && heard == std::vector<Left>{Left::removed} && map.free_unused() == 1);
#endif
}

// Two keys with the same number in the index are two keys.
static void keys_that_meet() {
    std::vector<std::pair<uint64_t, Left>> heard;
    object_map<uint64_t, Tracked, Meeting> map;
    MUST(map.open({100}, [&](const uint64_t &key, const Tracked &, Left why) { heard.emplace_back(key, why); }) == Status::ok);
    MUST(map.insert(1, Tracked(1)).status == Status::ok && !map.contains(4) && map.erase(4) == Status::absent);
    const cefrodil::Stored stored = map.insert(4, Tracked(4));
    MUST(stored.status == Status::ok && stored.evicted && map.contains(4) && !map.contains(1) && map.size() == 1);
    const cefrodil::Stored again = map.insert_or_assign(7, Tracked(7));
    MUST(again.status == Status::ok && again.evicted && !again.renewed && map.contains(7) && !map.contains(4));
    MUST(map.update(4, [](const Tracked &) { return Tracked(0); }) == Status::absent);
    const std::vector<std::pair<uint64_t, Left>> expected{{1, Left::evicted}, {4, Left::evicted}, {7, Left::removed}};
    MUST(map.erase(7) == Status::ok && heard == expected);
}

// What was found stays while the function runs, though it has left the map and others were freed.
static void stays_while_it_is_used() {
    object_map<uint64_t, Tracked> map;
    MUST(map.open({1000}) == Status::ok && map.insert(1, Tracked(10)).status == Status::ok);
    const long before = living;
    const Status status = map.look(1, [&](const Tracked &mine) {
        std::thread([&] {
            MUST(map.erase(1) == Status::ok && map.free_unused() == 0);
            for (uint64_t key = 100; key < 300; key++) {
                MUST(map.insert(key, Tracked(key)).status == Status::ok && map.erase(key) == Status::ok);
            }
        }).join();
        // The same thread looks others up, and frees.
        MUST(map.look(1, [](const Tracked &) {}) == Status::absent && map.free_unused() == 0);
        MUST(mine.lives() && mine.number() == 10 && living == before + 200);
    });
    MUST(status == Status::ok && map.free_unused() == 201 && living == before - 1);
    // A lookup that began after a look for such objects keeps none of them.
    MUST(map.insert(2, Tracked(20)).status == Status::ok && map.insert(3, Tracked(30)).status == Status::ok);
    MUST(map.look(3, [&](const Tracked &) { MUST(map.erase(2) == Status::ok && map.free_unused() == 0); }) == Status::ok);
    MUST(map.look(3, [&](const Tracked &) { MUST(map.free_unused() == 1); }) == Status::ok);
}

// A thread that has no pass of its own is pinned, too.
static void stays_without_a_pass() {
    object_map<uint64_t, Tracked> map;
    MUST(map.open({1000, 16, 1}) == Status::ok && map.insert(1, Tracked(10)).status == Status::ok);
    MUST(map.look(1, [&](const Tracked &mine) {
        MUST(map.look(1, [&](const Tracked &) { MUST(map.erase(1) == Status::ok && map.free_unused() == 0); }) == Status::ok);
        MUST(map.free_unused() == 0 && mine.lives());
    }) == Status::ok);
    MUST(map.free_unused() == 1);
}

static uint64_t drawn = 1;
static uint64_t draw(uint64_t below) {
    drawn = drawn * 6364136223846793005 + 1442695040888963407;
    return (drawn >> 33) % below;
}

// The listener keeps a model of what is there: it hears of each object that leaves, once.
static void agrees_with_a_model(long less) {
    std::map<uint64_t, uint64_t> model;
    object_map<uint64_t, Tracked> map;
    bool is_right = true;
    const auto left = [&](const uint64_t &key, const Tracked &value, Left) {
        is_right = is_right && value.lives() && model.count(key) == 1 && model[key] == value.number();
        model.erase(key);
    };
    MUST(map.open({200, 2}, left) == Status::ok);
    const long before = living;
    for (uint64_t n = 0; n < 200000 / uint64_t(less); n++) {
        const uint64_t key = draw(600);
        uint64_t seen = 0;
        const bool was_there = map.look(key, [&](const Tracked &value) { seen = value.number(); }) == Status::ok;
        is_right = is_right && was_there == (model.count(key) == 1) && (!was_there || model[key] == seen) && map.size() == model.size();
        Status status = Status::ok;
        switch (draw(4)) {
        case 0: status = map.insert(key, Tracked(n)).status; is_right = is_right && (status == Status::present) == was_there; break;
        case 1: status = map.insert_or_assign(key, Tracked(n)).status; break;
        case 2:
            status = map.update(key, [&](const Tracked &) { return Tracked(n); });
            is_right = is_right && (status == Status::absent) != was_there;
            break;
        default: is_right = is_right && (map.erase(key) == Status::ok) == was_there; status = Status::absent;
        }
        if (status == Status::ok) {
            model[key] = n;
        }
    }
    MUST(is_right && model.size() > 100);
    static_cast<void>(map.free_unused());
    MUST(living - before == long(model.size()) && map.close() == Status::ok && living == before);
}

// A map that is moved over an open one closes that, so its objects are destroyed.
static void moved_over() {
    object_map<int, std::shared_ptr<int>> map, other;
    const auto value = std::make_shared<int>(7);
    MUST(map.open({10}) == Status::ok && map.insert(1, std::shared_ptr<int>(value)).status == Status::ok);
    MUST(other.open({10}) == Status::ok && other.insert(2, std::shared_ptr<int>(value)).status == Status::ok && value.use_count() == 3);
    map = std::move(other);
    MUST(value.use_count() == 2 && !other.is_open() && map.contains(2) && !map.contains(1));
}

// A listener and a destructor may call the map.
static void calls_within_calls() {
    struct Chain {
        object_map<int, Chain> *map;
        int next;
        Chain(object_map<int, Chain> *its_map, int its_next) : map(its_map), next(its_next) {}
        Chain(Chain &&other) noexcept : map(std::exchange(other.map, nullptr)), next(other.next) {}
        ~Chain() {
            if (map != nullptr) {
                static_cast<void>(map->erase(next));
            }
        }
    };
    std::unique_ptr<object_map<int, Chain>> map = std::make_unique<object_map<int, Chain>>();
    int heard = 0;
    MUST(map->open({1000}, [&](const int &key, const Chain &, Left) { heard += !map->contains(key); }) == Status::ok);
    for (int key = 0; key < 100; key++) {
        MUST(map->insert(key, Chain(map.get(), key + 1)).status == Status::ok);
    }
    MUST(map->erase(0) == Status::ok);
    while (map->size() != 0) {
        MUST(map->free_unused() > 0);
    }
    MUST(heard == 100);
}

int main(int argc, char **argv) {
    const long less = argc > 1 ? std::atol(argv[1]) : 1;
    any_types();
    statuses();
    copies_once();
    looks();
    declined_and_removed();
    keys_that_meet();
    stays_while_it_is_used();
    stays_without_a_pass();
    agrees_with_a_model(less);
    moved_over();
    calls_within_calls();
    MUST(living == 0);
    return outcome("object_map");
}
