// What the contestants in C++ are asked for, which keys they get, and the clocks and the memory by which they are measured.
#pragma once
#include <algorithm>
#include <cstdint>
#include <cstdio>
#include <cstdlib>
#include <string>
#include <time.h>

// How many keys are looked up at most before anything is measured, and by one call.
enum { WARM = 1000000, MOST = 64 };

// The finalizer of MurmurHash3, by which the table hashes.
static inline uint64_t mix(uint64_t key) {
    key = (key ^ (key >> 33)) * 0xff51afd7ed558ccdull;
    key = (key ^ (key >> 33)) * 0xc4ceb9fe1a85ec53ull;
    return key ^ (key >> 33);
}

struct Mixed {
    size_t operator()(uint64_t key) const { return mix(key); }
};

static inline uint64_t scatter(uint64_t bits) {
    bits = (bits ^ (bits >> 30)) * 0xbf58476d1ce4e5b9ull;
    bits = (bits ^ (bits >> 27)) * 0x94d049bb133111ebull;
    return bits ^ (bits >> 31);
}

// Different numbers have different keys.
static inline uint64_t key_of(uint64_t number) { return scatter(number + 0x51ed270b); }

// Draws numbers by splitmix64.
struct Draw {
    uint64_t state;
    explicit Draw(uint64_t seed) : state((seed * 0x9e3779b97f4a7c15ull) ^ 0x1234567) {}
    uint64_t below(uint64_t most) {
        state += 0x9e3779b97f4a7c15ull;
        return ((scatter(state) >> 32) * most) >> 32;
    }
    double below_one() {
        below(1);
        return double(scatter(state) >> 11) / double(1ull << 53);
    }
};

struct Options {
    std::string workload = "hit";
    uint64_t readers = 1, writers = 0, keys = 1000, capacity = 1000, write_every = 1, seed = 1, many = 1, latencies = 0;
    // Only the bench of maps has a choice here: how many letters a key has, or 0 for a number; how many words a value has; and 1 for a quick hash.
    uint64_t letters = 0, words = 4, quick = 0;
    // Of full_cache.hpp alone, but for the last: the skew in hundredths, how many shards there are, and 1 for CLOCK.
    uint64_t skew = 99, shards = 16, clock = 0;
    double seconds = 0.3;

    Options(int count, char **given) {
        for (int n = 1; n + 1 < count; n += 2) {
            std::string name = given[n];
            if (name == "--workload") workload = given[n + 1];
            else if (name == "--seconds") seconds = atof(given[n + 1]);
            else number(name) = strtoull(given[n + 1], nullptr, 10);
        }
    }

    uint64_t &number(const std::string &name) {
        if (name == "--readers") return readers;
        if (name == "--writers") return writers;
        if (name == "--keys") return keys;
        if (name == "--capacity") return capacity;
        if (name == "--write-every") return write_every;
        if (name == "--seed") return seed;
        if (name == "--many") return many;
        if (name == "--latencies") return latencies;
        if (name == "--letters") return letters;
        if (name == "--words") return words;
        if (name == "--quick") return quick;
        if (name == "--skew") return skew;
        if (name == "--shards") return shards;
        if (name == "--clock") return clock;
        fprintf(stderr, "no option %s\n", name.c_str());
        exit(2);
    }

    bool alone() const { return readers + writers == 1; }
    uint64_t together() const { return std::min<uint64_t>(many, MOST); }
    uint64_t fresh() const { return (seed % 256) << 32; }
};

static inline double seconds_of(clockid_t clock) {
    struct timespec time;
    clock_gettime(clock, &time);
    return time.tv_sec + time.tv_nsec * 1e-9;
}

// The processor time of the thread, or the time on the clock.
static inline double now(bool alone) { return seconds_of(alone ? CLOCK_THREAD_CPUTIME_ID : CLOCK_MONOTONIC); }

// The bytes of the program that are in memory.
static inline double resident() {
    long whole = 0, pages = 0;
    FILE *account = fopen("/proc/self/statm", "r");
    if (!account || fscanf(account, "%ld %ld", &whole, &pages) != 2) abort();
    fclose(account);
    return 4096.0 * pages;
}
