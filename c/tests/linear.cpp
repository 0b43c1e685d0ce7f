// Threads make random calls on few keys, in many short rounds, and signals stop them in the middle. After each round the calls of each key must have an
// order in which each answer is right (linear.hpp). `clear` and `invalidate_all` are calls of each key: `clear` removes each key at a moment of its own,
// so nothing is said of all keys together.
//
// usage: linear [SECONDS [KIND [SEED]]]     SECONDS: draws the options of a map anew each second, and prints them with their seed. None: fixed kinds
//                                           and a few drawn ones, for a few seconds
//                                           KIND: map, timed_map or object_map. None: each in turn
//                                           SEED: of the first options, to repeat them
#include "linear_calls.hpp"
#include <chrono>
#include <cstdlib>
#include <cstring>

// What each key has before a round.
template <class Any> static std::vector<History> histories_of(const Tested<Any> &tested) {
    std::vector<History> histories;
    for (uint64_t key = 0; key < keys; key++) {
        histories.emplace_back(tested.map.get(key).value.value_or(absent), tested.how.may_end() || tested.how.has_lives);
    }
    return histories;
}

template <class Any> static bool have_order(std::vector<History> &histories, const Tested<Any> &tested) {
    for (uint64_t key = 0; key < keys; key++) {
        const uint64_t begun = counter++, found = tested.map.get(key).value.value_or(absent);
        histories[key].add({"get at the end", begun, counter++, found, whatever});
        if (!histories[key].has_order()) {
            std::printf("linear: these calls of key %llu have no order\n", static_cast<unsigned long long>(key));
            histories[key].print();
            return false;
        }
    }
    return true;
}

// Each object that was put is there or has left once. They weigh no more than the bound, or a call gave up, and the next put makes it so.
static bool adds_up(Tested<Objects> &tested) {
    const Options &how = tested.how;
    if (how.most_weight != 0 && tested.map.weight() > how.most_weight) {
        tested.fill(0);
    }
    return (!how.listens || tested.put - tested.left == tested.map.size()) && (how.most_weight == 0 || tested.map.weight() <= how.most_weight);
}
template <class Any> static bool adds_up(Tested<Any> &) { return true; }

// Returns how many calls said something, or 0 if they were wrong.
template <class Any> static uint64_t right_calls(Tested<Any> &tested, Stopped &running, Random &random) {
    if (random.below(2) == 0) {
        MUST(tested.map.clear() == Status::ok);
    }
    std::vector<History> histories = histories_of(tested);
    std::vector<Caller<Any>> callers;
    for (uint64_t n = 0; n < threads; n++) {
        callers.emplace_back(tested, random.below(UINT32_MAX));
    }
    running.run([&](uint64_t number) { callers[number].call_often(); }, random);
    uint64_t count = 1;
    for (const Caller<Any> &caller : callers) {
        std::for_each(caller.calls.begin(), caller.calls.end(), [&](const auto &made) { histories[made.key].add(made.call); });
        count += caller.calls.size();
    }
    MUST(adds_up(tested));
    const auto is_void = [](const Caller<Any> &caller) { return caller.is_void; };
    const bool says_nothing = std::any_of(callers.begin(), callers.end(), is_void);
    return says_nothing || have_order(histories, tested) ? count : 0;
}

static Status open(Tested<Map> &tested) { return tested.map.open(tested.how.map); }
static Status open(Tested<Timed> &tested) { return tested.map.open(tested.how.map, tested.how.lives); }
static Status open(Tested<Objects> &tested) {
    Objects::Rules rules;
    rules.lives = tested.how.lives;
    if (tested.how.most_weight != 0) {
        rules.weigher = [](uint64_t, uint64_t value) { return 1 + value % 4; };
        rules.most_weight = tested.how.most_weight;
    }
    if (tested.how.listens) {
        rules.listener = [&tested](uint64_t, uint64_t value, cefrodil::Left) {
            tested.left++;
            if (tested.how.nests && value % 8 == 0) {
                tested.fill(value / 8);
            }
        };
    }
    return tested.map.open(tested.how.map, rules, Hash{tested.how.collides});
}

using Moment = std::chrono::steady_clock::time_point;
// All rounds that were right, and their calls.
static uint64_t right_rounds = 0, all_right_calls = 0;

// So many rounds in a new map, or until then.
template <class Any> static void make_rounds(const char *name, const Options &how, uint64_t seed, uint64_t most, Moment end, Stopped &running) {
    if (line_of_failure != 0) {
        return;
    }
    Random random{seed};
    Tested<Any> tested(how);
    MUST(open(tested) == Status::ok);
    for (uint64_t number = 0; how.is_full && number < tested.fillers(); number++) {
        tested.fill(number);
    }
    for (uint64_t n = 0; n < most && line_of_failure == 0 && std::chrono::steady_clock::now() < end; n++) {
        const uint64_t calls = right_calls(tested, running, random);
        MUST(calls != 0);
        right_rounds++, all_right_calls += calls;
    }
    if (line_of_failure != 0) {
        std::printf("linear: wrong is ");
        how.print(name, seed);
    }
}

static void make_fixed(uint64_t most, uint64_t seed, Stopped &running) {
    Options how, full;
    full.is_full = true, full.map.entries = 40;
    make_rounds<Map>("map", how, seed, most, Moment::max(), running);
    make_rounds<Map>("map", full, seed, most, Moment::max(), running);
    how.has_lives = full.has_lives = true;
    make_rounds<Timed>("timed_map", how, seed, most, Moment::max(), running);
    make_rounds<Timed>("timed_map", full, seed, most, Moment::max(), running);
    make_rounds<Objects>("object_map", how, seed, most, Moment::max(), running);
    make_rounds<Objects>("object_map", full, seed, most, Moment::max(), running);
}

// In a map with options drawn by this seed.
template <class Any> static void make_drawn(const char *name, const char *only, uint64_t seed, uint64_t most, Moment end, Stopped &running) {
    if (*only == 0 || std::strcmp(only, name) == 0) {
        Random random{seed};
        const Options how = drawn_options(random, !std::is_same_v<Any, Map>, std::is_same_v<Any, Objects>);
        most == UINT64_MAX ? how.print(name, seed) : void();
        make_rounds<Any>(name, how, seed, most, end, running);
    }
}
static void make_all_drawn(const char *only, uint64_t seed, uint64_t most, std::chrono::seconds time, Stopped &running) {
    const auto end = [&] { return std::chrono::steady_clock::now() + time; };
    make_drawn<Map>("map", only, seed, most, end(), running);
    make_drawn<Timed>("timed_map", only, seed, most, end(), running);
    make_drawn<Objects>("object_map", only, seed, most, end(), running);
}

int main(int argc, char **argv) {
    const auto number = [&](int at) { return argc > at ? std::strtoull(argv[at], nullptr, 10) : 0; };
    const auto end = std::chrono::steady_clock::now() + std::chrono::seconds(number(1));
    const char *const only = argc > 2 ? argv[2] : "";
    Stopped running(threads);
    if (argc == 1) {
        for (uint64_t seed = 1; seed <= 4 && line_of_failure == 0; seed++) {
            make_fixed(300, seed, running);
            make_all_drawn("", seed, 100, std::chrono::hours(1), running);
        }
    }
    uint64_t seed = argc > 3 ? number(3) : static_cast<uint64_t>(end.time_since_epoch().count());
    for (; std::chrono::steady_clock::now() < end && line_of_failure == 0; seed = Random{seed}.below(UINT32_MAX)) {
        make_all_drawn(only, seed, UINT64_MAX, std::chrono::seconds(1), running);
    }
    std::printf("%llu rounds of %llu calls were right\n", static_cast<unsigned long long>(right_rounds), static_cast<unsigned long long>(all_right_calls));
    return outcome("linear");
}
