// What each contestant in C++ is put through: the protocol of `twin/src/protocol.rs`, in C++.
//
// A contestant is a class with: a constructor that takes how many keys there will be; `get` (whether the key is there, and
// its value); `put` (false where it is refused); `slots` (places for keys, or 0); `enter`, `tick` and `leave`, which each
// thread calls at its beginning, now and then, and at its end. With `--many N` readers call `get_many`, if the contestant has it:
// lookups of N keys, whose values it writes and of which it returns how many are there. Writers that only write call `put_many`, if the
// contestant has it: puts of N keys, of which it returns how many are refused. With `--latencies 1` each lookup of a reader is timed; with
// `--latencies 2` each put of a writer, which puts new keys.
#pragma once
#include "latencies.hpp"
#include "options.hpp"
#include <array>
#include <atomic>
#include <chrono>
#include <memory>
#include <thread>
#include <vector>

typedef std::array<uint64_t, 4> Value;

// Looks keys up, by one call if the contestant has one, and returns how many are there.
template <class C> auto get_many(C &map, const uint64_t *keys, Value *values, size_t many, int) -> decltype(map.get_many(keys, values, many)) {
    return map.get_many(keys, values, many);
}

template <class C> size_t get_many(C &map, const uint64_t *keys, Value *values, size_t many, long) {
    size_t hits = 0;
    for (size_t n = 0; n < many; n++) hits += map.get(keys[n], values[n]);
    return hits;
}

// Puts keys, by one call if the contestant has one, and returns how many are refused.
template <class C> auto put_many(C &map, const uint64_t *keys, const Value *values, size_t many, int) -> decltype(map.put_many(keys, values, many)) {
    return map.put_many(keys, values, many);
}

template <class C> size_t put_many(C &map, const uint64_t *keys, const Value *values, size_t many, long) {
    size_t refused = 0;
    for (size_t n = 0; n < many; n++) refused += !map.put(keys[n], values[n]);
    return refused;
}

struct alignas(128) Tally {
    uint64_t lookups = 0, hits = 0, torn = 0, writes = 0, refused = 0;
    double seconds = 0;

    void check(const Value &value) { torn += ((value[0] ^ value[1]) | (value[0] ^ value[2]) | (value[0] ^ value[3])) != 0; }

    template <class C> void look(C &map, uint64_t key) {
        // Numbers are added, with no branch on the answer, as `mcbench` counts.
        Value value{};
        lookups++;
        hits += map.get(key, value);
        check(value);
    }

    template <class C> void look_many(C &map, const uint64_t *keys, Value *values, size_t many) {
        lookups += many;
        hits += get_many(map, keys, values, many, 0);
        for (size_t n = 0; n < many; n++) check(values[n]);
    }

    template <class C> void put(C &map, uint64_t key, uint64_t word) {
        writes++;
        refused += !map.put(key, Value{word, word, word, word});
    }

    template <class C> void put_several(C &map, const uint64_t *keys, uint64_t word, size_t many) {
        Value values[MOST];
        for (size_t n = 0; n < many; n++) values[n] = Value{word, word, word, word};
        writes += many;
        refused += put_many(map, keys, values, many, 0);
    }

    void add(const Tally &other) {
        lookups += other.lookups, hits += other.hits, torn += other.torn;
        writes += other.writes, refused += other.refused;
    }
};

// The keys that a thread draws: those of `numbers` numbers from `first` on.
struct Keys {
    Draw draw;
    uint64_t first, numbers;
    uint64_t next() { return key_of(first + draw.below(numbers)); }
};

// When a writer puts: once in `every` calls, next after `left`.
struct Puts {
    uint64_t every, left = every;
    bool is_due() {
        if (--left != 0) return false;
        left = every;
        return true;
    }
};

// 64 lookups. They are drawn and counted in registers, as in `mcbench`.
template <class C> __attribute__((noinline)) void look_often(C &map, Keys &keys, Tally &tally) {
    Keys drawn = keys;
    Tally some;
    for (uint64_t n = 0; n < 64; n++) some.look(map, drawn.next());
    keys = drawn;
    tally.add(some);
}

// 64 calls of a writer, whose keys are those of numbers from 0 on.
template <class C> __attribute__((noinline)) void write_often(C &map, Keys &keys, Puts &puts, Tally &tally) {
    Keys drawn = keys;
    Puts some_puts = puts;
    Tally some;
    for (uint64_t n = 0; n < 64; n++) {
        uint64_t key = key_of(drawn.draw.below(drawn.numbers));
        if (some_puts.is_due()) some.put(map, key, n);
        else some.look(map, key);
    }
    keys = drawn;
    puts = some_puts;
    tally.add(some);
}

// 64 lookups, each timed by itself. A busy answer counts as a lookup.
template <class C> __attribute__((noinline)) void time_lookups(C &map, Keys &keys, Tally &tally, Latencies &latencies) {
    for (uint64_t n = 0; n < 64; n++) {
        uint64_t key = keys.next();
        Value value{};
        uint64_t began = ticks_before();
        bool hit = map.get(key, value);
        // Else the compiler could copy the value after the second read of the counter.
        asm volatile("" : "+m"(value), "+r"(hit));
        latencies.count(ticks_after() - began);
        tally.lookups++;
        tally.hits += hit;
        tally.check(value);
    }
}

// 64 puts of new keys, each timed by itself.
template <class C> __attribute__((noinline)) void time_puts(C &map, uint64_t &next, Tally &tally, Latencies &latencies) {
    for (uint64_t n = 0; n < 64; n++) {
        uint64_t key = key_of(next++), began = ticks_before();
        tally.put(map, key, n);
        latencies.count(ticks_after() - began);
    }
}

// The threads of a run begin and end together.
struct Signals {
    std::atomic<int> waiting;
    std::atomic<bool> over{false};

    template <class C> void enter(C &map) {
        map.enter();
        waiting--;
        while (waiting) __builtin_ia32_pause();
    }
};

static inline Keys keys_of(const Options &options, uint64_t seed) {
    return {Draw(options.seed * 1000 + seed), options.workload == "miss" ? 1ull << 40 : 0,
            options.workload == "half" ? 2 * options.keys : options.keys};
}

// The work of a thread whose lookups are timed one by one.
template <class C> Tally work_timed(C &map, const Options &options, uint64_t seed, Signals &signals, Latencies &latencies) {
    Keys keys = keys_of(options, seed);
    Tally tally;
    signals.enter(map);
    double began = now(options.alone());
    while (!signals.over) {
        time_lookups(map, keys, tally, latencies);
        map.tick();
    }
    tally.seconds = now(options.alone()) - began;
    map.leave();
    return tally;
}

// The work of a thread whose puts of new keys are timed one by one.
template <class C> Tally put_timed(C &map, const Options &options, Signals &signals, Latencies &latencies) {
    uint64_t next = options.fresh() + (uint64_t(1) << 41);
    Tally tally;
    signals.enter(map);
    double began = now(options.alone());
    while (!signals.over) {
        time_puts(map, next, tally, latencies);
        map.tick();
    }
    tally.seconds = now(options.alone()) - began;
    map.leave();
    return tally;
}

// The work of a thread that puts several keys by each call.
template <class C> Tally work_in_batches(C &map, const Options &options, uint64_t seed, Signals &signals) {
    Keys keys = keys_of(options, seed);
    Tally tally;
    uint64_t together[MOST], many = options.together(), calls = 0;
    signals.enter(map);
    double began = now(options.alone());
    while (!signals.over) {
        for (uint64_t n = 0; n < many; n++) together[n] = keys.next();
        tally.put_several(map, together, calls++, many);
        map.tick();
    }
    tally.seconds = now(options.alone()) - began;
    map.leave();
    return tally;
}

// One thread's work: a reader's, or a writer's.
template <class C> Tally work(C &map, const Options &options, uint64_t seed, bool puts, Signals &signals) {
    Keys keys = keys_of(options, seed);
    Puts due = {options.write_every};
    Tally tally;
    uint64_t together[MOST], many = options.together();
    Value values[MOST] = {};
    signals.enter(map);
    double began = now(options.alone());
    while (!signals.over) {
        if (puts) {
            write_often(map, keys, due, tally);
        } else if (many > 1) {
            for (uint64_t n = 0; n < many; n++) together[n] = keys.next();
            tally.look_many(map, together, values, many);
        } else {
            look_often(map, keys, tally);
        }
        map.tick();
    }
    tally.seconds = now(options.alone()) - began;
    map.leave();
    return tally;
}

// Prints the sums of what the threads did. The line of JSON isn't ended.
static inline void print_sums(const Options &options, const std::vector<Tally> &tallies, uint64_t refused, double bytes) {
    double lookups_s = 0, writes_s = 0, nanos = 0;
    uint64_t lookups = 0, writes = 0, read = 0, torn = 0;
    for (uint64_t n = 0; n < tallies.size(); n++) {
        const Tally &tally = tallies[n];
        lookups_s += tally.lookups / tally.seconds;
        writes_s += tally.writes / tally.seconds;
        lookups += tally.lookups;
        writes += tally.writes;
        torn += tally.torn;
        refused += tally.refused;
        if (n < options.readers) nanos += tally.seconds * 1e9, read += tally.lookups;
    }
    printf("{\"ns_lookup\":%.2f,\"lookups_s\":%.0f,\"writes_s\":%.0f,\"lookups\":%lu,\"writes\":%lu,\"torn\":%lu,\"refused\":%lu,\"bytes_key\":%.1f",
        read ? nanos / read : 0, lookups_s, writes_s, lookups, writes, torn, refused, bytes / options.keys);
}

// Readers and writers over keys that were put before.
template <class C> void beside(const Options &options) {
    double before = resident();
    auto map = std::make_unique<C>(options.capacity);
    Tally filled;
    map->enter();
    for (uint64_t n = 0; n < options.keys; n++) filled.put(*map, key_of(n), 0);
    double bytes = resident() - before;
    for (uint64_t n = 0; n < std::min<uint64_t>(options.keys, WARM); n++) filled.look(*map, key_of(n));
    map->leave();
    uint64_t threads = options.readers + options.writers;
    Signals signals{int(threads)};
    std::vector<Tally> tallies(threads);
    std::vector<Latencies> latencies(options.latencies ? threads : 0);
    std::vector<std::thread> workers;
    Ruler ruler;
    for (uint64_t n = 0; n < threads; n++)
        workers.emplace_back([&, n] {
            bool puts = n >= options.readers;
            if (options.latencies == 1 && !puts) tallies[n] = work_timed(*map, options, n, signals, latencies[n]);
            else if (options.latencies == 2 && puts) tallies[n] = put_timed(*map, options, signals, latencies[n]);
            else if (options.many > 1 && puts && options.write_every == 1) tallies[n] = work_in_batches(*map, options, n, signals);
            else tallies[n] = work(*map, options, n, puts, signals);
        });
    std::this_thread::sleep_for(std::chrono::duration<double>(options.seconds));
    signals.over = true;
    for (auto &worker : workers) worker.join();
    print_sums(options, tallies, filled.refused, bytes);
    for (size_t n = 1; n < latencies.size(); n++) latencies[0].add(latencies[n]);
    if (!latencies.empty()) print_latencies(latencies[0], ruler);
    printf("}\n");
    fflush(stdout);
    _Exit(0);
}

static inline void report(uint64_t writes, uint64_t refused, double seconds, double bytes, double load) {
    printf("{\"writes_s\":%.0f,\"writes\":%lu,\"refused\":%lu,\"bytes_key\":%.1f,\"load_factor\":%.5f}\n", writes / seconds, writes, refused, bytes, load);
}

// Fresh keys into new maps, up to their capacity.
template <class C> void fill(const Options &options) {
    uint64_t first = options.fresh();
    double spent = 0, bytes = 0;
    Tally tally;
    while (spent < options.seconds) {
        double before = bytes == 0 ? resident() : 0;
        auto map = std::make_unique<C>(options.capacity);
        map->enter();
        double began = now(true);
        for (uint64_t n = 0; n < options.capacity; n++) {
            tally.put(*map, key_of(first + n), n);
            if (n % 64 == 0) map->tick();
        }
        spent += now(true) - began;
        if (bytes == 0) bytes = resident() - before;
        first += options.capacity;
        map->leave();
    }
    report(tally.writes, tally.refused, spent, bytes / options.capacity, 0);
}

// Fresh keys into a map that is full and evicts.
template <class C> void evict(const Options &options) {
    auto map = std::make_unique<C>(options.capacity);
    uint64_t first = options.fresh();
    auto put = [&](Tally &tally, uint64_t many) {
        for (uint64_t n = 0; n < many; n++) tally.put(*map, key_of(first + n), n);
        first += many;
    };
    map->enter();
    Tally before, tally;
    put(before, 2 * options.capacity);
    double began = now(true);
    while (now(true) - began < options.seconds) put(tally, 1000);
    report(tally.writes, tally.refused, now(true) - began, 0, 0);
    map->leave();
}

// The same by calls that put several keys.
template <class C> void evict_in_batches(const Options &options) {
    auto map = std::make_unique<C>(options.capacity);
    uint64_t next = options.fresh(), together[MOST], many = options.together();
    auto put = [&](Tally &tally, uint64_t calls) {
        for (uint64_t call = 0; call < calls; call++) {
            for (uint64_t n = 0; n < many; n++) together[n] = key_of(next++);
            tally.put_several(*map, together, call, many);
        }
    };
    map->enter();
    Tally before, tally;
    put(before, 2 * options.capacity / many);
    double began = now(true);
    while (now(true) - began < options.seconds) put(tally, 1000 / many);
    report(tally.writes, tally.refused, now(true) - began, 0, 0);
    map->leave();
}

// Fresh keys until one is refused.
template <class C> void load(const Options &options) {
    C map(options.capacity);
    uint64_t many = 0, slots = map.slots();
    map.enter();
    double began = now(true);
    while (many < slots && map.put(key_of(options.fresh() + many), Value{1, 1, 1, 1})) many++;
    report(many, 0, now(true) - began, 0, double(many) / slots);
    map.leave();
}

template <class C> int contest(int count, char **words) {
    Options options(count, words);
    if (options.workload == "fill") fill<C>(options);
    else if (options.workload == "evict" && options.many > 1) evict_in_batches<C>(options);
    else if (options.workload == "evict") evict<C>(options);
    else if (options.workload == "load") load<C>(options);
    else beside<C>(options);
    return 0;
}
