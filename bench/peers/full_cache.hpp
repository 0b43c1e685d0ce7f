// Threads that look up in a full cache and put each key that they miss. The keys are drawn by Zipf's law.
#pragma once
#include "harness.hpp"
#include <cmath>

// Draws numbers below `count`: number n in proportion to 1 / (n + 1) ** skew, where the skew is not 1. By rejection and inversion (Hoermann and
// Derflinger): the area below 1 / x ** skew is inverted, and what a step of it has too much is rejected.
struct Zipf {
    double skew, count, first, last, sure;
    Zipf(double its_skew, uint64_t numbers) : skew(its_skew), count(double(numbers)) {
        first = area(1.5) - 1, last = area(count + 0.5), sure = 2 - from(area(2.5) - std::pow(2, -skew));
    }
    double area(double x) const { return std::pow(x, 1 - skew) / (1 - skew); }
    double from(double its_area) const { return std::pow(its_area * (1 - skew), 1 / (1 - skew)); }
    uint64_t next(Draw &draw) const {
        for (;;) {
            const double y = last + draw.below_one() * (first - last), x = from(y);
            const double step = std::min(std::max(std::floor(x + 0.5), 1.0), count);
            if (step - x <= sure || y >= area(step + 0.5) - std::pow(step, -skew)) return uint64_t(step) - 1;
        }
    }
};

// The lookups of a thread, and its puts of what it misses: until it is over, and so many lookups at least. The keys are drawn before, some at a
// time, and only the calls are timed.
template <class C> Tally look_or_put(C &map, const Options &options, uint64_t seed, uint64_t least, const std::atomic<bool> &over) {
    const Zipf zipf(options.skew / 100.0, options.keys);
    Draw draw(options.seed * 1000 + seed);
    Tally tally;
    std::array<uint64_t, 1024> keys;
    while (tally.lookups < least || !over) {
        for (uint64_t &key : keys) key = key_of(zipf.next(draw));
        const double began = now(options.alone());
        for (const uint64_t key : keys) {
            const uint64_t hits = tally.hits;
            tally.look(map, key);
            if (tally.hits == hits) tally.put(map, key, key);
        }
        tally.seconds += now(options.alone()) - began;
    }
    return tally;
}

static inline int print_cache(const std::vector<Tally> &tallies) {
    Tally all;
    double calls_s = 0;
    for (const Tally &tally : tallies) {
        all.add(tally);
        all.seconds += tally.seconds;
        calls_s += tally.lookups / tally.seconds;
    }
    printf("{\"ns_call\":%.2f,\"calls_s\":%.0f,\"hit_ratio\":%.5f,\"lookups\":%lu,\"writes\":%lu,\"torn\":%lu,\"refused\":%lu}\n",
        all.seconds * 1e9 / all.lookups, calls_s, double(all.hits) / all.lookups, all.lookups, all.writes, all.torn, all.refused);
    return 0;
}

// Before the threads begin, there are ten lookups for each key that the cache holds.
template <class C> int full_cache(const Options &options) {
    C map(options);
    Signals signals{int(options.readers)};
    std::vector<Tally> tallies(options.readers);
    std::vector<std::thread> workers;
    map.enter();
    look_or_put(map, options, options.readers, std::max<uint64_t>(10 * options.capacity, WARM), true);
    map.leave();
    for (uint64_t n = 0; n < options.readers; n++)
        workers.emplace_back([&, n] {
            signals.enter(map);
            tallies[n] = look_or_put(map, options, n, 0, signals.over);
            map.leave();
        });
    std::this_thread::sleep_for(std::chrono::duration<double>(options.seconds));
    signals.over = true;
    for (auto &worker : workers) worker.join();
    return print_cache(tallies);
}
