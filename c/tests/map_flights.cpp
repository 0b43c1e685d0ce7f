// Values that are computed, in threads: one thread computes, and the others wait. What a change has outdated is not put.
#include "cefrodil_map.hpp"
#include "in_threads.hpp"
#include "must.h"
#include <algorithm>
#include <array>
#include <chrono>
#include <cstdlib>
#include <stdexcept>
#include <unistd.h>

using cefrodil::Status;

using Numbers = cefrodil::map<uint64_t, uint64_t>;

// Of several threads that miss a key, one computes it.
static void computations() {
    Numbers numbers;
    MUST(numbers.open({150000}) == Status::ok);
    std::atomic<uint64_t> calls{0}, told_computed{0};
    in_threads(6, [&](size_t) {
        for (uint64_t key = 0; key < 50; key++) {
            const auto answer = numbers.find_or_compute(key, [&] {
                calls++;
                std::this_thread::sleep_for(std::chrono::microseconds(300));
                return key + 1;
            });
            MUST(answer.status == Status::ok && answer.value == key + 1);
            told_computed += answer.computed;
        }
    });
    MUST(calls == 50 && told_computed == 50);
    // Nor does one that ended between a miss and the begin of the next one make that compute again.
    calls = 0;
    in_threads(4, [&](size_t) {
        for (uint64_t key = 1000; key < 1000 + 100000 / fewer; key++) {
            MUST(numbers.find_or_compute(key, [&] { return ++calls, key; }).value == key);
        }
    });
    MUST(calls == 100000 / fewer);
    // While a key is computed, other keys are, too. An erasure meanwhile has the value not put.
    std::atomic<bool> has_begun{false}, goes_on{false};
    std::thread slow([&] {
        const auto answer = numbers.find_or_compute(100, [&] {
            for (has_begun = true; !goes_on;) {
                std::this_thread::yield();
            }
            return uint64_t(1);
        });
        MUST(answer.status == Status::stale && answer.value == 1 && answer.computed);
    });
    while (!has_begun) {
        std::this_thread::yield();
    }
    for (uint64_t key = 101; key < 200; key++) {
        MUST(numbers.find_or_compute(key, [] { return uint64_t(2); }).status == Status::ok);
    }
    MUST(numbers.erase(100) == Status::absent);
    goes_on = true;
    slow.join();
    MUST(!numbers.contains(100));
}

// While the function of an update runs, the key is erased, and then computed again. What is computed may not know what the function did, so it is
// not put. Without `first` the update finds the key absent, and else puts that.
template <class Update> static void computed_beside(Update update) {
    Numbers numbers;
    MUST(numbers.open({100}) == Status::ok && numbers.insert(7, 1).status == Status::ok);
    std::atomic<bool> has_begun{false}, goes_on{false};
    std::thread computing;
    update(numbers, [&](uint64_t old) {
        MUST(numbers.erase(7) == Status::ok);
        computing = std::thread([&] {
            const auto computed = numbers.find_or_compute(7, [&] {
                for (has_begun = true; !goes_on;) {
                    std::this_thread::yield();
                }
                return uint64_t(70);
            });
            MUST(computed.status == Status::stale && computed.value == 70);
        });
        while (!has_begun) {
            std::this_thread::yield();
        }
        return old + 1;
    });
    goes_on = true;
    computing.join();
    MUST(numbers.find(7) != 70u);
}

static void computations_beside_updates() {
    computed_beside([](Numbers &numbers, auto function) { MUST(numbers.update(7, function).status == Status::absent); });
    computed_beside([](Numbers &numbers, auto function) { MUST(numbers.update_or_insert(7, 5, function).value == 5u); });
}

// Flights end in any order. The others are still told of changes.
static void flights() {
    using cefrodil::inside::Flight, cefrodil::inside::Identity;
    cefrodil::inside::Flights flights;
    std::optional<Flight> one, two;
    one.emplace(flights, Identity{1, 1});
    two.emplace(flights, Identity{2, 1});
    Flight three(flights, {1, 2});
    const auto ends = [](Flight &flight) { return flight.land([] { return Status::ok; }); };
    MUST(one->has_begun() && two->has_begun() && three.has_begun() && ends(*one) == Status::ok);
    one.reset();
    flights.outdate({1, 1});
    MUST(ends(*two) == Status::ok && ends(three) == Status::ok);
    flights.outdate({1, 2});
    MUST(ends(*two) == Status::ok && ends(three) == Status::stale);
    // A change of another key does not take that back.
    flights.outdate({1, 3});
    MUST(ends(*two) == Status::ok && ends(three) == Status::stale);
    flights.outdate_all();
    MUST(ends(*two) == Status::stale);
}

// Who waits for a key's flight goes on when that ends, though another key's flight goes on.
static void flights_of_other_keys() {
    using cefrodil::inside::Flight, cefrodil::inside::Identity;
    cefrodil::inside::Flights flights;
    std::optional<Flight> one, two;
    one.emplace(flights, Identity{1, 1});
    two.emplace(flights, Identity{2, 1});
    std::atomic<bool> begins{false}, goes_on{false};
    std::thread waiting([&] {
        begins = true;
        const Flight same(flights, {1, 1});
        goes_on = true;
    });
    while (!begins) {
        std::this_thread::yield();
    }
    std::this_thread::sleep_for(std::chrono::milliseconds(20));
    MUST(!goes_on);
    one.reset();
    for (int n = 0; !goes_on && n < 20000; n++) {
        std::this_thread::sleep_for(std::chrono::milliseconds(1));
    }
    MUST(goes_on);
    two.reset();
    waiting.join();
}

// Of so many flights, only that of the key which is changed is told.
static void told_flights(uint64_t count) {
    using cefrodil::inside::Flight, cefrodil::inside::Identity;
    for (uint64_t changed = 0; changed < count; changed++) {
        cefrodil::inside::Flights flights;
        std::array<std::optional<Flight>, 4> begun;
        for (uint64_t key = 0; key < count; key++) {
            begun[key].emplace(flights, Identity{key, 1});
        }
        flights.outdate({changed, 1});
        for (uint64_t key = 0; key < count; key++) {
            MUST(begun[key]->land([] { return Status::ok; }) == (key == changed ? Status::stale : Status::ok));
        }
    }
}

// A function that throws does so to its caller alone, and then one of the others computes.
static void exceptions() {
#ifdef __cpp_exceptions
    Numbers numbers;
    MUST(numbers.open({1000}) == Status::ok);
    std::atomic<int> calls[20]{}, caught{0}, got{0};
    in_threads(6, [&](size_t) {
        for (uint64_t key = 0; key < 20; key++) {
            try {
                const auto answer = numbers.find_or_compute(key, [&] {
                    std::this_thread::sleep_for(std::chrono::microseconds(300));
                    if (++calls[key] <= 2) {
                        throw std::runtime_error("not now");
                    }
                    return key;
                });
                got += answer.value == key;
            } catch (const std::runtime_error &) {
                caught++;
            }
        }
    });
    MUST(caught == 40 && got == 80 && std::all_of(calls, calls + 20, [](int count) { return count == 3; }));
#endif
}

int main(int argc, char **argv) {
    fewer = argc > 1 ? std::strtoull(argv[1], nullptr, 10) : 1;
    alarm(argc > 1 ? 240 : 100); // so that a flight which never ends fails the test
    computations();
    computations_beside_updates();
    flights();
    flights_of_other_keys();
    for (uint64_t count = 1; count <= 4; count++) {
        told_flights(count);
    }
    exceptions();
    return outcome("map_flights");
}
