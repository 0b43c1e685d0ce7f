// Pins of an object_map's values, and `extract` of all maps. A pinned value stays, and holds nothing else back. Argument: by how much less to do.
#include "cefrodil_object_map.hpp"
#include "must.h"
#include <cstdlib>
#include <thread>

using cefrodil::object_map;
using cefrodil::pinned;
using cefrodil::Status;

// So many of these live.
static std::atomic<long> living{0};

struct Tracked {
    explicit Tracked(uint64_t its_number) : number(its_number) { living++; }
    Tracked(Tracked &&other) noexcept : number(other.number) { living++; }
    ~Tracked() {
        number = dead;
        living--;
    }
    static constexpr uint64_t dead = 0xdead;
    uint64_t number;
};

static void a_pin_keeps_one_object() {
    object_map<uint64_t, Tracked> map;
    MUST(!map.pin(1) && map.open({1000}) == Status::ok && !map.pin(1));
    MUST(map.insert(1, Tracked(10)).status == Status::ok && map.insert(2, Tracked(20)).status == Status::ok);
    pinned<Tracked> one = map.pin(1), again = map.pin(1);
    MUST(one && again && one->number == 10 && (*again).number == 10 && map.meter().counts().hits == 2 && map.meter().counts().misses == 1);
    // The object stays, and all others that leave are freed.
    MUST(map.erase(1) == Status::ok && map.erase(2) == Status::ok && map.waiting() == 2);
    MUST(map.free_unused() == 2 && map.waiting() == 0 && living == 1 && one->number == 10);
    // The last one to end destroys it.
    pinned<Tracked> moved = std::move(one);
    MUST(!one && moved->number == 10);
    moved.reset();
    MUST(living == 1 && again->number == 10);
    std::thread([&] { again.reset(); }).join();
    MUST(living == 0);
    // If the object is still there, its pin's end does nothing.
    MUST(map.insert(3, Tracked(30)).status == Status::ok);
    MUST(map.pin(3)->number == 30 && living == 1 && map.contains(3));
    MUST(map.insert_or_assign(3, Tracked(31)).renewed && map.pin(3)->number == 31);
    MUST(map.free_unused() == 1 && living == 1);
}

// A pin outlives its map.
static void a_pin_outlives_the_map() {
    pinned<Tracked> there, left;
    {
        object_map<uint64_t, Tracked> map;
        cefrodil::ObjectRules<uint64_t, Tracked> rules;
        rules.weigher = [](const uint64_t &, const Tracked &) { return uint64_t(5); };
        rules.lives.time_to_live = std::chrono::hours(1);
        MUST(map.open({100}, rules) == Status::ok && map.insert(1, Tracked(1)).status == Status::ok && map.insert(2, Tracked(2)).status == Status::ok);
        there = map.pin(1), left = map.pin(2);
        MUST(map.erase(2) == Status::ok && map.weight() == 5 && map.close() == Status::ok && there->number == 1);
    }
    MUST(living == 2 && there->number == 1 && left->number == 2);
    there.reset(), left.reset();
    MUST(living == 0);
}

// What a map has dropped is counted while pins keep it, also when the map is closed.
static void what_pins_keep_is_counted() {
    for (const bool is_weighed : {true, false}) {
        object_map<uint64_t, Tracked> map;
        cefrodil::ObjectRules<uint64_t, Tracked> rules;
        if (is_weighed) {
            rules.weigher = [](const uint64_t &key, const Tracked &) { return key; };
        }
        MUST(map.open({100}, rules) == Status::ok);
        const cefrodil::Meter meter = map.meter();
        const auto are_kept = [&](uint64_t number, uint64_t weight) {
            return meter.counts().pinned == number && meter.counts().pinned_weight == (is_weighed ? weight : 0);
        };
        for (const uint64_t key : {1, 5, 7}) {
            MUST(map.insert(key, Tracked(key)).status == Status::ok);
        }
        pinned<Tracked> one = map.pin(1), five = map.pin(5), again = map.pin(5);
        MUST(map.erase(5) == Status::ok);
        cefrodil::Extracted<Tracked> seven = map.extract(7);
        MUST(are_kept(0, 0) && map.free_unused() == 2 && are_kept(2, 12));
        again.reset();
        MUST(are_kept(2, 12) && living == 3);
        seven.value.reset();
        MUST(are_kept(1, 5) && living == 2 && map.close() == Status::ok && are_kept(2, 6));
        std::thread([&] { five.reset(); }).join();
        MUST(are_kept(1, 1) && one->number == 1);
        one.reset();
        MUST(are_kept(0, 0) && living == 0);
    }
}

// What is no value of the key now has no pin.
static void no_pin_of_what_ended() {
    object_map<std::string, uint64_t> map;
    MUST(map.open({100}) == Status::ok && map.insert("a", 1).status == Status::ok && *map.pin("a") == 1);
    MUST(map.invalidate_all() == Status::ok && !map.pin("a") && map.insert_for("b", 1, std::chrono::nanoseconds(0)).status == Status::ok && !map.pin("b"));
}

// `extract` is `erase`, and gives the value back.
static void extracts() {
    cefrodil::map<uint64_t, uint64_t> values;
    MUST(values.extract(1).status == Status::closed && values.open({100}) == Status::ok && values.insert(1, 10).status == Status::ok);
    const cefrodil::Found<uint64_t> found = values.extract(1), none = values.extract(1);
    MUST(found.status == Status::ok && found.value == 10u && none.status == Status::absent && !none.value && values.size() == 0);
    cefrodil::timed_map<uint64_t, uint64_t> timed;
    MUST(timed.open({100}) == Status::ok && timed.insert_for(1, 10, std::chrono::nanoseconds(0)).status == Status::ok);
    MUST(timed.extract(1).status == Status::absent && timed.size() == 0);

    std::vector<cefrodil::Left> heard;
    object_map<uint64_t, Tracked> map;
    MUST(map.extract(1).status == Status::closed);
    MUST(map.open({100}, [&](const uint64_t &, const Tracked &, cefrodil::Left why) { heard.push_back(why); }) == Status::ok);
    MUST(map.insert(1, Tracked(10)).status == Status::ok);
    {
        const cefrodil::Extracted<Tracked> taken = map.extract(1), absent = map.extract(1);
        MUST(taken.status == Status::ok && taken.value->number == 10 && absent.status == Status::absent && !absent.value);
        MUST(heard == std::vector<cefrodil::Left>{cefrodil::Left::removed} && map.free_unused() == 1 && living == 1 && taken.value->number == 10);
    }
    MUST(living == 0 && map.size() == 0);
}

// Threads pin what others replace and remove, and let go later, some without a pass. No pinned value is dead, and all are destroyed at the end.
static void threads(long less, const cefrodil::MapOptions &options) {
    std::atomic<long> wrong{0};
    {
        std::vector<pinned<Tracked>> last;
        object_map<uint64_t, Tracked> map;
        MUST(map.open(options) == Status::ok);
        const auto work = [&](uint64_t seed) {
            std::vector<pinned<Tracked>> kept(16);
            for (uint64_t n = 0; n < 40000 / uint64_t(less); n++) {
                seed = seed * 6364136223846793005 + 1442695040888963407;
                const uint64_t key = (seed >> 33) % 20, way = (seed >> 50) % 4;
                if (way == 0) {
                    static_cast<void>(map.insert_or_assign(key, Tracked(n * 1000 + key)));
                } else if (way == 1 && n % 2 == 0) {
                    kept[n % 16] = map.extract(key).value;
                } else if (pinned<Tracked> mine = map.pin(key)) {
                    wrong += mine->number % 1000 != key;
                    kept[n % 16].swap(mine);
                }
                wrong += kept[n % 16] && kept[n % 16]->number == Tracked::dead;
            }
        };
        std::vector<std::thread> running;
        for (uint64_t n = 1; n <= 4; n++) {
            running.emplace_back(work, n);
        }
        std::for_each(running.begin(), running.end(), [](std::thread &thread) { thread.join(); });
        static_cast<void>(map.free_unused());
        MUST(wrong == 0 && living == long(map.size()));
        for (uint64_t key = 0; key < 20; key++) {
            last.push_back(map.pin(key));
        }
        MUST(map.close() == Status::ok);
    }
    MUST(living == 0);
}

static void what_was_computed_is_pinned() {
    using Maybe = std::optional<Tracked>;
    object_map<uint64_t, Tracked> map;
    const auto closed = map.pin_or_compute(1, [] { return Tracked(1); });
    MUST(closed.status == Status::closed && !closed.value && !closed.computed);
    decltype(map)::Rules rules;
    rules.weigher = [](const uint64_t &, const Tracked &value) { return value.number; };
    rules.most_weight = 100;
    MUST(map.open({1000}, rules) == Status::ok);
    const auto declined = map.pin_or_compute(1, [] { return Maybe(); });
    MUST(declined.status == Status::declined && !declined.value && declined.computed && map.size() == 0);
    const auto first = map.pin_or_compute(1, [] { return Maybe(Tracked(10)); });
    MUST(first.status == Status::ok && first.computed && first.value->number == 10 && map.size() == 1);
    const auto again = map.pin_or_compute(1, [] { return Tracked(11); });
    MUST(again.status == Status::ok && !again.computed && again.value.get() == first.value.get());
    // What is not put is the caller's alone.
    const auto heavy = map.pin_or_compute(2, [] { return Tracked(101); });
    MUST(heavy.status == Status::too_heavy && heavy.computed && heavy.value->number == 101 && !map.pin(2));
    const auto stale = map.pin_or_compute(3, [&] { return static_cast<void>(map.erase(3)), Tracked(30); });
    MUST(stale.status == Status::stale && stale.value->number == 30 && !map.pin(3) && map.close() == Status::ok && first.value->number == 10 && living == 3);
}

static void threads_compute_once() {
    object_map<uint64_t, Tracked> map;
    MUST(map.open({1000}) == Status::ok);
    std::atomic<uint64_t> computed{0}, wrong{0};
    std::vector<std::thread> running;
    for (uint64_t n = 0; n < 4; n++) {
        running.emplace_back([&] {
            for (uint64_t key = 0; key < 200; key++) {
                const auto found = map.pin_or_compute(key, [&] { return computed++, Tracked(key); });
                wrong += found.status != Status::ok || found.value->number != key;
            }
        });
    }
    std::for_each(running.begin(), running.end(), [](std::thread &thread) { thread.join(); });
    MUST(computed == 200 && wrong == 0);
}

int main(int argc, char **argv) {
    const long less = argc > 1 ? std::atol(argv[1]) : 1;
    a_pin_keeps_one_object();
    a_pin_outlives_the_map();
    what_pins_keep_is_counted();
    no_pin_of_what_ended();
    extracts();
    what_was_computed_is_pinned();
    MUST(living == 0);
    threads_compute_once();
    threads(less, {1000});
    threads(less, {10, 1, 3});
    return outcome("pins");
}
