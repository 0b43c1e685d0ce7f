// Maps of a program's own types, side by side: the same work as in `maps/src/main.rs`. The contestants are cefrodil::map, cefrodil::object_map, libcuckoo and TBB. All of
// them hash by the SipHash-1-3 of cefrodil/inside/hash.hpp, or all by two multiplications.
#include "harness.hpp"
#include "cefrodil_map.hpp"
#include "cefrodil_object_map.hpp"
#include <libcuckoo/cuckoohash_map.hh>
#include <optional>
#include <string_view>
#include <tbb/concurrent_hash_map.h>

// A value of so many words, each of them the key's number.
template <size_t N> using Words = std::array<uint64_t, N>;

// A letter, from `a` to `p`, for each four bits of a number of 32.
static inline uint64_t spread(uint64_t bits) {
    bits = (bits | bits << 16) & 0x0000ffff0000ffffull;
    bits = (bits | bits << 8) & 0x00ff00ff00ff00ffull;
    return ((bits | bits << 4) & 0x0f0f0f0f0f0f0f0full) + 0x6161616161616161ull;
}

// Calls with the key of a number: the number itself, or 16 letters. They are made in registers, so drawing a key reads no memory.
template <class K, class Call> static inline auto with(uint64_t number, Call call) {
    if constexpr (std::is_same_v<K, uint64_t>) {
        return call(number);
    } else {
        const uint64_t letters[2] = {spread(number & 0xffffffff), spread(number >> 32)};
        return call(std::string_view(reinterpret_cast<const char *>(letters), sizeof letters));
    }
}

// A hash of a number by two multiplications, as the index hashes.
struct Quick {
    uint64_t operator()(uint64_t key, uint64_t seed) const { return mix(key ^ seed); }
};

// The two hashes with the seed of this process, as libcuckoo and TBB call them.
static uint64_t seed_of_all;

template <class K, class Hash> struct Seeded {
    typedef void is_transparent;
    typedef typename cefrodil::inside::Taken<K, Hash> Key;
    size_t operator()(Key key) const { return hash(key); }
    size_t hash(Key key) const { return Hash()(key, seed_of_all); }
    bool equal(Key one, Key other) const { return one == other; }
};

// A map as it is opened by default, but for the hash.
template <class M, size_t N> struct Opened {
    typedef M Map;
    Map map;

    explicit Opened(uint32_t keys) {
        cefrodil::MapOptions options{};
        options.entries = keys;
        if (map.open(options) != cefrodil::Status::ok) abort();
    }
    std::optional<Words<N>> get(typename Map::Key key) { return map.find(key); }
    bool put(typename Map::Key key, const Words<N> &value) { return map.insert_or_assign(key, value).status == cefrodil::Status::ok; }
};

template <class K, size_t N, class Hash> struct Cefrodil : Opened<cefrodil::map<K, Words<N>, Hash>, N> {
    using Opened<cefrodil::map<K, Words<N>, Hash>, N>::Opened;

    void get_many(const K *keys, size_t count, std::optional<Words<N>> *values) { this->map.find_many(keys, count, values); }
};

// The same as objects on the heap, of which a lookup copies the value.
template <class K, size_t N, class Hash> using Objects = Opened<cefrodil::object_map<K, Words<N>, Hash>, N>;

template <class K, size_t N, class Hash> struct Cuckoo {
    typedef Seeded<K, Hash> Hashes;
    libcuckoo::cuckoohash_map<K, Words<N>, Hashes, std::equal_to<>> map;

    explicit Cuckoo(size_t keys) : map(keys) {}
    std::optional<Words<N>> get(typename Hashes::Key key) {
        std::optional<Words<N>> value;
        map.find_fn(key, [&](const Words<N> &found) { value = found; });
        return value;
    }
    bool put(typename Hashes::Key key, const Words<N> &value) {
        map.insert_or_assign(key, value);
        return true;
    }
};

template <class K, size_t N, class Hash> struct Tbb {
    typedef Seeded<K, Hash> Hashes;
    typedef tbb::concurrent_hash_map<K, Words<N>, Hashes> Map;
    Map map;

    explicit Tbb(size_t keys) : map(keys) {}
    std::optional<Words<N>> get(typename Hashes::Key key) {
        typename Map::const_accessor found;
        return map.find(found, key) ? std::optional(found->second) : std::nullopt;
    }
    bool put(typename Hashes::Key key, const Words<N> &value) {
        typename Map::accessor found;
        map.insert(found, key);
        found->second = value;
        return true;
    }
};

// The calls of a thread.
struct alignas(128) Counts {
    uint64_t calls = 0, lookups = 0, hits = 0, torn = 0, refused = 0;
    double seconds = 0;

    template <class C, class Key> bool look(C &map, Key key, uint64_t number) { return count(map.get(key), number); }
    // Looks up so many keys, which are numbers, by one call.
    template <size_t N, class C> void look_together(C &map, const std::array<uint64_t, MOST> &numbers, size_t many) {
        std::array<std::optional<Words<N>>, MOST> found;
        map.get_many(numbers.data(), many, found.data());
        for (size_t n = 0; n < many; n++) count(found[n], numbers[n]);
    }
    template <class Value> bool count(const std::optional<Value> &found, uint64_t number) {
        lookups++;
        hits += found.has_value();
        if (found) {
            uint64_t other = 0;
            for (uint64_t word : *found) other |= word ^ number;
            torn += other != 0;
        }
        return found.has_value();
    }

    template <size_t N, class C, class Key> void put(C &map, Key key, uint64_t number) {
        Words<N> value;
        value.fill(number);
        refused += !map.put(key, value);
    }
};

// One thread's lookups of drawn numbers, so many by each call, for a while.
template <size_t N, class C> void look_all(C &map, Counts &counts, Draw &draw, const Options &options) {
    std::array<uint64_t, MOST> numbers;
    for (uint64_t done = 0; done < 64; done += options.together()) {
        for (uint64_t n = 0; n < options.together(); n++) numbers[n] = key_of(draw.below(options.keys));
        counts.look_together<N>(map, numbers, options.together());
        counts.calls += options.together();
    }
}

// Whether a map looks up many keys by one call.
template <class C, class = void> constexpr bool has_many = false;
template <class C> constexpr bool has_many<C, std::void_t<decltype(&C::get_many)>> = true;

// One thread's work. If `puts`, it puts once in `write_every` calls. All other calls are lookups. In a full cache it puts each key that it misses.
template <class K, size_t N, class C>
__attribute__((noinline)) Counts work_on(C &map, const Options &options, uint64_t seed, bool puts, std::atomic<int> &waiting, std::atomic<bool> &over) {
    const uint64_t first = options.workload == "miss" ? 1ull << 40 : 0, keys = options.keys;
    const bool is_full_cache = options.workload == "cache";
    Draw draw(options.seed * 1000 + seed);
    Counts counts;
    uint64_t left = options.write_every;
    waiting--;
    while (waiting) __builtin_ia32_pause();
    const double began = now(options.alone());
    while (!over) {
        if constexpr (has_many<C> && std::is_same_v<K, uint64_t>) {
            if (options.many > 1) {
                look_all<N>(map, counts, draw, options);
                continue;
            }
        }
        for (int n = 0; n < 64; n++) {
            const uint64_t number = key_of(first + draw.below(keys));
            with<K>(number, [&](auto key) {
                left -= puts;
                if (left == 0) {
                    left = options.write_every;
                    counts.put<N>(map, key, number);
                } else if (!counts.look(map, key, number) && is_full_cache) {
                    counts.put<N>(map, key, number);
                }
            });
        }
        counts.calls += 64;
    }
    counts.seconds = now(options.alone()) - began;
    return counts;
}

template <class K, size_t N, class C> void run(const Options &options) {
    C map(options.capacity);
    Counts filled, all;
    for (uint64_t n = 0; n < options.keys; n++) with<K>(key_of(n), [&](auto key) { filled.put<N>(map, key, key_of(n)); });
    for (uint64_t n = 0; n < std::min<uint64_t>(options.keys, WARM); n++) with<K>(key_of(n), [&](auto key) { filled.look(map, key, key_of(n)); });
    const uint64_t threads = options.readers + options.writers;
    std::atomic<int> waiting(threads);
    std::atomic<bool> over(false);
    std::vector<Counts> counts(threads);
    std::vector<std::thread> workers;
    for (uint64_t n = 0; n < threads; n++)
        workers.emplace_back([&, n] { counts[n] = work_on<K, N>(map, options, n, n >= options.readers, waiting, over); });
    std::this_thread::sleep_for(std::chrono::duration<double>(options.seconds));
    over = true;
    for (auto &worker : workers) worker.join();
    double calls_s = 0;
    for (const Counts &each : counts) {
        calls_s += each.calls / each.seconds;
        all.calls += each.calls, all.lookups += each.lookups, all.hits += each.hits;
        all.torn += each.torn, all.refused += each.refused, all.seconds += each.seconds;
    }
    printf("{\"ns_call\":%.2f,\"calls_s\":%.0f,\"hit_ratio\":%.5f,\"calls\":%lu,\"torn\":%lu,\"refused\":%lu,\"lost\":%lu}\n",
        all.seconds * 1e9 / all.calls, calls_s, double(all.hits) / all.lookups, all.calls, all.torn + filled.torn, all.refused + filled.refused,
        filled.lookups - filled.hits);
    fflush(stdout);
    _Exit(0);
}

template <class K, size_t N, class Hash = cefrodil::SipHash<K>> void choose(const Options &options, const std::string &name) {
    if (name == "cefrodil") run<K, N, Cefrodil<K, N, Hash>>(options);
    if constexpr (!std::is_same_v<Hash, Quick>) {
        if (name == "objects") run<K, N, Objects<K, N, Hash>>(options);
    }
    if (name == "libcuckoo") run<K, N, Cuckoo<K, N, Hash>>(options);
    if (name == "tbb") run<K, N, Tbb<K, N, Hash>>(options);
}

// The last word says which contestant runs.
int main(int count, char **words) {
    const Options options(count, words);
    const std::string name = words[count - 1];
    seed_of_all = mix(options.seed);
    if (options.letters == 16 && options.words == 4 && !options.quick) choose<std::string, 4>(options, name);
    if (options.letters == 0 && options.words == 1 && !options.quick) choose<uint64_t, 1>(options, name);
    if (options.letters == 0 && options.words == 4 && !options.quick) choose<uint64_t, 4>(options, name);
    if (options.letters == 0 && options.words == 7 && !options.quick) choose<uint64_t, 7>(options, name);
    if (options.letters == 0 && options.words == 4 && options.quick) choose<uint64_t, 4, Quick>(options, name);
    fprintf(stderr, "no such contestant, keys, values or hashes\n");
    return 2;
}
