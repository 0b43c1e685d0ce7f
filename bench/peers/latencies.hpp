// How long single calls take, by the processor's time stamp counter. The two reads of the counter are part of what is counted.
#pragma once
#include <array>
#include <cstdint>
#include <cstdio>
#include <time.h>
#include <x86intrin.h>

// Everything before it has been executed when the counter is read.
static inline uint64_t ticks_before() {
    _mm_lfence();
    return __rdtsc();
}

// It waits for what comes before, and what comes after waits for it.
static inline uint64_t ticks_after() {
    unsigned core;
    uint64_t ticks = __rdtscp(&core);
    _mm_lfence();
    return ticks;
}

// The length of a tick, found by comparing the counter with the clock.
struct Ruler {
    uint64_t ticks = __rdtsc();
    double nanos = clock_nanos();

    static double clock_nanos() {
        struct timespec time;
        clock_gettime(CLOCK_MONOTONIC, &time);
        return time.tv_sec * 1e9 + time.tv_nsec;
    }
    double nanos_per_tick() const { return (clock_nanos() - nanos) / (__rdtsc() - ticks); }
};

// How many calls took how many ticks. There are 32 buckets for each power of two, so a count takes no memory, and is exact to a thirtieth.
struct Latencies {
    enum { FINE = 5, EACH = 1 << FINE };
    std::array<uint64_t, EACH *(65 - FINE)> calls{};

    static size_t bucket_of(uint64_t ticks) {
        if (ticks < EACH) return ticks;
        int shift = 63 - __builtin_clzll(ticks) - FINE;
        return EACH * size_t(shift) + (ticks >> shift);
    }

    // The middle of a bucket.
    static double ticks_of(size_t bucket) {
        if (bucket < EACH) return double(bucket);
        int shift = int(bucket / EACH) - 1;
        return double(EACH + bucket % EACH) * double(1ull << shift) + (double(1ull << shift) - 1) / 2;
    }

    void count(uint64_t ticks) { calls[bucket_of(ticks)]++; }

    void add(const Latencies &other) {
        for (size_t n = 0; n < calls.size(); n++) calls[n] += other.calls[n];
    }

    // The ticks that this share of the calls doesn't exceed.
    double percentile(double share) const {
        uint64_t all = 0, below = 0;
        for (uint64_t some : calls) all += some;
        for (size_t n = 0; n < calls.size(); n++) {
            below += calls[n];
            if (below != 0 && double(below) >= share * double(all)) return ticks_of(n);
        }
        return 0;
    }
};

// What is counted if nothing is done between the two reads.
static inline Latencies empty_latencies() {
    Latencies empty;
    for (int n = 0; n < 10000; n++) {
        uint64_t began = ticks_before();
        empty.count(ticks_after() - began);
    }
    return empty;
}

// The percentiles, as more fields of a line of JSON.
static inline void print_latencies(const Latencies &latencies, const Ruler &ruler) {
    double tick = ruler.nanos_per_tick();
    const struct {
        const char *name;
        double share;
    } asked[] = {{"p50_ns", .5}, {"p90_ns", .9}, {"p99_ns", .99}, {"p999_ns", .999}, {"p9999_ns", .9999}};
    for (const auto &each : asked) printf(",\"%s\":%.1f", each.name, tick * latencies.percentile(each.share));
    printf(",\"empty_ns\":%.1f", tick * empty_latencies().percentile(.5));
}
