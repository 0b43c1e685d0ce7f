// The options of a map under test: drawn, or those of a fixed kind. For linear.cpp.
#ifndef DRAWN_HPP
#define DRAWN_HPP

#include "cefrodil_map.hpp"
#include "rounds.hpp"
#include <cinttypes>
#include <cstdio>

struct Options {
    cefrodil::MapOptions map{100};
    bool is_full = false; // other keys fill it
    bool bounds = false;  // calls bound the number of keys, each time at another one
    // Of a timed_map and an object_map. The times are ticks of the test's clock. `has_lives`: calls put with times of their own.
    bool has_lives = false;
    cefrodil::Lives lives{};
    // Of an object_map. A bound of 0: nothing weighs. `nests`: the listener puts other objects. `collides`: two keys have one hash.
    uint64_t most_weight = 0;
    bool listens = false, nests = false, collides = false;

    // Whether any entry may be gone at any time: because of its time, another key, or the bound.
    bool may_end() const {
        const bool is_small = map.entries < 8 * std::max(1u, map.shards);
        const bool ends = lives.time_to_live != cefrodil::forever || lives.time_to_idle != cefrodil::forever;
        return is_full || bounds || nests || is_small || ends || most_weight != 0 || collides;
    }
    void print(const char *name, uint64_t seed) const {
        std::printf("%s %" PRIu64 ": entries %u, shards %u, passes %u, tries %u", name, seed, map.entries, map.shards, map.passes, map.tries);
        std::printf("%s%s%s", is_full ? ", full" : "", bounds ? ", bounds" : "", has_lives ? ", lives" : "");
        for (const auto &life : {lives.time_to_live, lives.time_to_idle}) {
            life == cefrodil::forever ? std::printf(" -") : std::printf(" %lld", static_cast<long long>(life.count()));
        }
        std::printf(", weight %" PRIu64 "%s%s%s\n", most_weight, listens ? ", listens" : "", nests ? ", nests" : "", collides ? ", collides" : "");
        std::fflush(stdout);
    }
};

// Draws all options that such a map has.
inline Options drawn_options(Random &random, bool is_timed, bool is_objects) {
    const auto is = [&](uint64_t one_of) { return random.below(one_of) == 0; };
    const auto life = [&](uint64_t bits) {
        return is(2) ? cefrodil::forever : std::chrono::nanoseconds(int64_t(1) << random.below(bits));
    };
    Options drawn;
    drawn.map.entries = is(2) ? drawn.map.entries : static_cast<uint32_t>(1 + random.below(uint64_t(1) << random.below(11)));
    drawn.map.shards = is(2) ? 0 : 1u << random.below(5);
    drawn.map.passes = is(2) ? drawn.map.passes : static_cast<uint32_t>(1 + random.below(6));
    drawn.map.tries = is(2) ? drawn.map.tries : static_cast<uint32_t>(random.below(20));
    drawn.is_full = is(3), drawn.bounds = is(3);
    drawn.has_lives = is_timed && is(2);
    if (drawn.has_lives) {
        drawn.lives.time_to_live = life(14), drawn.lives.time_to_idle = life(20);
    }
    if (is_objects) {
        drawn.most_weight = is(2) ? 0 : 2 + random.below(uint64_t(4) << random.below(10));
        drawn.listens = is(2), drawn.nests = drawn.listens && is(2), drawn.collides = is(4);
    }
    return drawn;
}

#endif
