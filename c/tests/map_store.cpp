// A map before a store of the program's. One thread changes the store by a release store and erases the key, while another computes the key's value
// from the store. Once the erasure has returned, the map never has the older value. A processor keeps a store back for a while, more so after
// others that miss its cache, and reads meanwhile: so an erasure must not look for computations before the change of the store is seen.
#include "cefrodil_map.hpp"
#include "must.h"
#include <chrono>
#include <cstdlib>
#include <unistd.h>

using cefrodil::Status;
using std::chrono::steady_clock;

// Has a pair of cache lines of its own.
struct alignas(128) Number {
    std::atomic<uint64_t> value{0};
};

static constexpr size_t records = 20;
static Number store, other_records[records], begun, ended;
static std::atomic<bool> is_over{false};

static void wait_for(const Number &number, uint64_t round) {
    for (uint32_t spins = 0; number.value.load(std::memory_order_acquire) < round && !is_over; spins++) {
        spins < 10000 ? cefrodil::inside::pause() : std::this_thread::yield();
    }
}

// Spins for a time that differs from round to round, so that the two threads meet in different ways.
static void spin(uint64_t &state) {
    state = state * 6364136223846793005u + 1442695040888963407u;
    for (uint64_t spins = (state >> 33) % 60; spins != 0; spins--) {
        cefrodil::inside::pause();
    }
}

// Has the other records in its cache, so that the other thread's stores to them take long.
static void compute(cefrodil::map<uint64_t, uint64_t> &map) {
    uint64_t state = 1, read = 0;
    for (uint64_t round = 1; !is_over; round++) {
        for (const Number &record : other_records) {
            read += record.value.load(std::memory_order_relaxed);
        }
        wait_for(begun, round);
        spin(state);
        MUST(map.find_or_compute(7, [] { return store.value.load(std::memory_order_acquire); }).value <= round);
        ended.value.store(round, std::memory_order_release);
    }
    MUST(read != 1);
}

// Returns whether the map has no older value after the erasure.
static bool change(cefrodil::map<uint64_t, uint64_t> &map, uint64_t round, uint64_t &state) {
    begun.value.store(round, std::memory_order_release);
    spin(state);
    for (Number &record : other_records) {
        record.value.store(round, std::memory_order_relaxed);
    }
    store.value.store(round, std::memory_order_release);
    const Status erased = map.erase(7);
    wait_for(ended, round);
    const auto found = map.find(7);
    const bool is_right = (erased == Status::ok || erased == Status::absent) && found.value_or(round) == round;
    return is_right && map.erase(7) == (found ? Status::ok : Status::absent);
}

// With an argument it makes so many rounds.
int main(int argc, char **argv) {
    const uint64_t rounds = argc > 1 ? std::strtoull(argv[1], nullptr, 10) : 500000;
    const auto end = steady_clock::now() + std::chrono::seconds(5);
    alarm(100); // so that a computation or an erasure which never ends fails the test
    cefrodil::map<uint64_t, uint64_t> map;
    MUST(map.open({100, 1}) == Status::ok);
    std::thread computing(compute, std::ref(map));
    uint64_t state = 99;
    for (uint64_t round = 1; round <= rounds && steady_clock::now() < end; round++) {
        MUST(change(map, round, state));
    }
    is_over = true;
    computing.join();
    return outcome("map_store");
}
