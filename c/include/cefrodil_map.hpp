// A cache as a map of a program's own types, for any number of threads. A new key evicts another one when its shard is full.
//
//     #include "cefrodil_map.hpp"
//     int main() {
//         cefrodil::map<std::string, uint64_t> ages;
//         if (ages.open({1000}) != cefrodil::Status::ok) { return 1; }
//         const cefrodil::Stored stored = ages.insert("ann", 41); // stored.status: ok, or why not
//         const std::optional<uint64_t> age = ages.find("ann");   // none: it was not put, or was evicted
//         const cefrodil::Status erased = ages.erase("ann");      // neither ok nor absent: call again
//         return stored.status == cefrodil::Status::ok && age == 41u && erased == cefrodil::Status::ok ? 0 : 1;
//     }
//
// Compile it over the folder that c/build made: g++ -std=c++17 -I FOLDER/include program.cpp FOLDER/lib/libcefrodil.a -lpthread
//
// Values of any type and size are for cefrodil_object_map.hpp. Entries that end are for a timed_map:
//     cefrodil::timed_map<std::string, uint64_t> sessions;
//     cefrodil::Lives lives;
//     lives.time_to_live = std::chrono::hours(8);
//     const cefrodil::Status opened = sessions.open({1000}, lives);
//     const cefrodil::Stored stored = sessions.insert_for("token", 41, std::chrono::minutes(5)); // with a time of its own
// Its values have up to 40 bytes. What has expired is absent for all calls, and so is what invalidate_all has ended. It takes room until others overwrite
// or evict it, or until erase or erase_expired, and `size` counts it. Each call that puts or updates removes it at two places of its shard, and goes round
// all, so in a full map it makes room before others are evicted. A put begins both times anew, also over a value. An update and each call that finds
// the entry begin the time to idle anew, but `peek` does not. For that a lookup writes the entry again, if more than a sixteenth of the time has passed
// since the last such write. It waits for its turn as a write does. So an entry may end a sixteenth of its time to idle sooner.
//
// Values are trivially copyable, without padding, up to 56 bytes. Keys that need no hash of yours are strings, integers, enums, pointers, and structs
// without padding whose bytes are their value; cefrodil/inside/hash.hpp says more. std::pair and std::tuple are not among them: write a struct.
//
// This header is plain C++ and is not proved. The index below it is: a lookup of a 64-bit number returns what was put under it last, at one moment
// of the call, and never parts of two values.
//
// The map keeps and compares no keys. It knows a key by 128 bits, made with a secret. Half of them are the key's number in the index. The others are
// a check word, which is stored with the value. A lookup compares it, and a mismatch is a miss. By default the check word of a key whose type has up
// to 8 bytes, such as an integer, an enum, a pointer or a small struct, is the key itself: two such keys are never confused, unless invalidate_all was
// called between their puts. Then it is a chance of 2^-64, that they have the same number in the index. Any other key, such as a string of any length,
// has two hashes. Two of those are confused, as far as is known, with a chance of 2^-128. By a hash of yours, two keys are confused if it gives them the
// same two words.
//
// A forked child finds the map closed: its lookups miss, its other calls return `closed`, and its destructor frees nothing. The child may open it, or
// others, anew.
//
// What you promise: no other call runs during open, close, a move or the destructor. All other calls may come from any thread at any time. No call
// comes from a signal handler. A function that you pass does not return in a forked child. A shared library that opened a map is not unloaded while a
// thread lives that called the map. malloc, realloc and free belong to one allocator, whose blocks are aligned to 16 bytes. The program is linked with
// the archive that belongs to this header.
//
// No call throws, but what your hash and your functions throw. A call that other threads keep from its turn is repeated, up to `tries` times. At
// first it spins, then it yields, then it sleeps. At last it returns `held` or `busy`. A call that fails has changed nothing of its key; `clear`, `erase_if`,
// `erase_expired`, `set_capacity` and `set_most_weight` may have removed some keys, and so may a put that makes room. It can be compiled with -fno-exceptions and -fno-rtti. Then the program ends if a call finds no memory.
#ifndef CEFRODIL_MAP_HPP
#define CEFRODIL_MAP_HPP

#include "cefrodil.hpp"
#include "cefrodil/inside/computed.hpp"
#include "cefrodil/inside/forks.hpp"
#include "cefrodil/inside/hash.hpp"
#include "cefrodil/inside/table.hpp"
#include <algorithm>
#include <memory>
#include <optional>

namespace cefrodil {

// Whether a type can be the value of a map: as `is_value`, of up to 56 bytes, and an object that a function can return.
template <class V> inline constexpr bool is_map_value = is_value<V> && words_of<V> <= 7 && std::is_copy_constructible_v<V> && !std::is_const_v<V>;

// How a map is opened. A thread takes a pass at its first call, and gives it back at its end. One pass is shared behind a lock by all threads that
// find no other: they are slower, and `shared_calls` counts their calls. Each thread that calls a map takes 4 kB more.
struct MapOptions {
    uint32_t entries;         // 1 or more: the map has room for so many; `capacity` is about a tenth more at most
    uint32_t shards = 0;      // a power of two, 1 to 256: so many threads can write at once. 0: one for each 62 entries, 16 at most. If they have more
                              // room, the map holds a tenth more than `entries`, as by `set_capacity`
    uint32_t passes = 1 + 64; // 1 to 1,024, with the shared one
    uint32_t tries = 10000;   // how often a call is repeated that other threads keep from its turn. This takes over a second. A lookup is repeated
                              // 1,000 times at most, which takes over a tenth of a second.
    std::chrono::nanoseconds most_wait = forever; // for so long a call waits at most for functions that others have called: see `find_or_compute`
};

// The answers of lookups and updates are `Found`, in cefrodil/inside/table.hpp. Those of puts are `Stored`, in cefrodil/inside/slot.hpp, and those of
// find_or_compute are `Computed`, in cefrodil/inside/computed.hpp.

namespace inside {

// What maps of both kinds have. `Inner`: what an open one owns.
template <class Inner> class AnyMap {
  public:
    bool is_open() const noexcept { return bool(inner_); }
    // Closes the map and frees its memory. An object_map destroys its objects.
    Status close() noexcept { return inner_.reset() ? Status::ok : Status::closed; }

    // Removes each key that was put before. Unless ok, some keys may still be there; no_memory: all of them. It takes memory for a list of all
    // entries, and a turn at each shard.
    [[nodiscard]] Status clear() noexcept { return inner_ ? inner_->entries.clear() : Status::closed; }
    // Once it has returned, no key is found that was put before it began, nor a value that find_or_compute was computing then. A key is found whose put
    // began afterwards. A put that runs meanwhile comes before or after it. It is one step, however many keys there are: their entries take room until
    // others overwrite or evict them, or until erase_expired, and `size` and `weight` count them. ok or closed.
    Status invalidate_all() noexcept { return inner_ ? inner_->entries.invalidate_all() : Status::closed; }
    // Of a timed_map or an object_map: removes what has expired, and what was put before invalidate_all. It is listed as by `clear`. Unless ok, some of it
    // may still be there.
    [[nodiscard]] Status erase_expired() noexcept { return inner_ ? inner_->entries.erase_expired() : Status::closed; }

    // How many keys there are. Calls that run meanwhile count or not.
    uint64_t size() const noexcept { return inner_ ? inner_->entries.keys() : 0; }
    // How many keys the map holds at most. Each shard evicts for itself, so the first eviction may come before the map is full.
    uint64_t capacity() const noexcept { return inner_ ? inner_->entries.capacity() : 0; }
    // Changes that: to 1 and more, up to the room of all shards, which is the first `capacity` or more. It evicts keys until no more are left. In a
    // full map another key of the same shard leaves for a new one. A put that fails may have made others leave. While threads put, there may be some
    // keys more: a later put evicts these. bad_capacity: nothing was done. held: not all have left, as other threads were first; later puts go on. Of an
    // object_map, too_deep. closed.
    [[nodiscard]] Status set_capacity(uint64_t most) noexcept { return inner_ ? inner_->entries.set_capacity(most) : Status::closed; }
    // How many calls of the index threads without a pass of their own made. They wait for each other. If there are many, open the map with more passes.
    uint64_t shared_calls() const noexcept { return inner_ ? inner_->entries.shared_calls() : 0; }
    // What the lookups of this map came to, each counted once: the calls of find, get, look, pin, contains, find_or_compute and pin_or_compute, and the
    // keys of find_many and look_many. So
    // `meter().counts().hit_rate()` is exact while no call runs. What has expired is a miss, and so is another key's entry. A call of find_or_compute
    // that waits for another one's value is a miss, too. The other counts are of calls of the index: of those, a call of the map may make several.
    Meter meter() const noexcept { return inner_ ? inner_->entries.meter() : Meter(nullptr); }
    // Which part of the lookups of about the last minute found their key, as `counts` says, or 0.
    double hit_rate_of_last_minute() const noexcept { return meter().counts().hit_rate_of_last_minute; }
    // What `meter` has, with the size, the capacity and the weight of the map.
    Counts counts() const noexcept {
        Counts all = meter().counts();
        all.entries = size(), all.capacity = capacity(), all.weight = inner_ ? inner_->entries.weight() : 0;
        return all;
    }

  protected:
    // Makes what the map owns, draws its secret, and opens its index. Unless ok, nothing was done.
    template <class Make> Status open_as(const MapOptions &options, Make make) noexcept {
        if (inner_) {
            return Status::in_use;
        }
        std::unique_ptr<Inner> opened;
        if (!has_memory([&] { opened = make(); })) {
            return Status::no_memory;
        }
        if (!opened->identities.draw()) {
            return Status::no_random;
        }
        opened->entries.flights.limit(options.most_wait);
        const Status status = opened->entries.open(options.entries, options.shards, options.passes, options.tries);
        return status == Status::ok && !inner_.own(std::move(opened)) ? Status::no_memory : status;
    }

    OwnedPointer<Inner> inner_{};
};

} // namespace inside

// A map of K to V. A hash of yours is `HashPair operator()(const K &key, const HashSecret &secret) const`. Several threads call it at once. It must
// take in all by which keys differ: two keys with the same two words are one key to the map. A hash that std::unordered_map can do with may take in
// less, such as a number that the key keeps of its name. The two words must be independent, as SipHash's are, for any type. To hash two members, hash
// a struct of both. Here is a hash of a key's name:
//     return cefrodil::SipHash<std::string_view>()(key.name, secret);
// Or it has 64 bits: `uint64_t operator()(const K &key, uint64_t seed) const`. Then it is called twice, with two seeds, which must give independent
// hashes.
// `Times`: a timed_map has another.
template <class K, class V, class Hash = SipHash<K>, class Times = inside::Timeless>
class map : public inside::AnyMap<inside::Opened<K, Hash, inside::Table<V, Times>>> {
    using Entries = inside::Table<V, Times>;
    using Words = typename Entries::Words;
    using Inner = inside::Opened<K, Hash, Entries>;
    using inside::AnyMap<Inner>::inner_;
    static constexpr bool never_throws = inside::Identities<inside::Taken<K, Hash>, Hash>::never_throws;

  public:
    // How a call takes a key. A string is taken as a view.
    using Key = inside::Taken<K, Hash>;

    map() noexcept {}

    // Opens the map, empty. Without `lives` only those entries end that are put with a time of their own. Unless ok, nothing was done. in_use: it is open. no_memory. no_random: the kernel gave no secret. other_version: the
    // archive is another version's. processor: it is older than x86-64-v2. bad_shards, bad_handles: `shards` or `passes` is out of range. bad_items:
    // no entries, as by open({0}), or too many: a shard holds up to 3,774,873.
    [[nodiscard]] Status open(const MapOptions &options, Hash hash = Hash()) noexcept {
        return open_with(options, std::move(hash));
    }
    [[nodiscard]] Status open(const MapOptions &options, const Lives &lives, Hash hash = Hash()) noexcept {
        return open_with(options, std::move(hash), lives);
    }

    // The key's value. None if the key is absent, the lookup was busy each time, or the map is not open.
    [[nodiscard]] std::optional<V> find(Key key) const noexcept(never_throws) {
        Words packed;
        return seek(key, packed) == Status::ok ? Entries::value_of(packed) : std::nullopt;
    }
    // The same, with the status: ok, absent, busy or closed.
    [[nodiscard]] Found<V> get(Key key) const noexcept(never_throws) {
        Words packed;
        const Status status = seek(key, packed);
        return {status, status == Status::ok ? Entries::value_of(packed) : std::nullopt};
    }
    [[nodiscard]] bool contains(Key key) const noexcept(never_throws) { return get(key).status == Status::ok; }
    // The key's value, which doesn't count as used: it is evicted as if nobody had looked. It takes the turn at the key's shard, as a write does. ok,
    // absent, held or closed.
    [[nodiscard]] Found<V> peek(Key key) const noexcept(never_throws) {
        return inner_ ? inner_->entries.peek(inner_->identities.of(key)) : Found<V>{Status::closed, std::nullopt};
    }
    // Writes to `values` what `find` returns for each of `count` keys, with fewer calls of the index. `Each` is what a call takes as a key: of a map
    // of strings, std::string or std::string_view. Returns how many keys were found.
    template <class Each> size_t find_many(const Each *keys, size_t count, std::optional<V> *values) const noexcept(never_throws) {
        std::array<inside::Identity, inside::few_keys> known;
        std::fill_n(values, count, std::nullopt);
        for (size_t begin = 0; inner_ && begin < count; begin += known.size()) {
            const size_t few = std::min(count - begin, known.size());
            std::transform(keys + begin, keys + begin + few, known.begin(), [&](const Each &key) { return inner_->identities.of(key); });
            inner_->entries.find_few(known.data(), few, values + begin);
        }
        return static_cast<size_t>(std::count_if(values, values + count, [](const std::optional<V> &value) { return value.has_value(); }));
    }

    // Puts a key that is absent. present: it is there, and keeps its value. no_path, all_recent, spent: it is absent, and was not put. held, busy,
    // changed: other threads were first each time, and nothing was done: call again. closed.
    [[nodiscard]] Stored insert(Key key, const V &value) noexcept(never_throws) {
        return put_if_absent(key, value, Life());
    }
    // Puts a key, whether it is there or not. no_path, all_recent: it is absent, and was not put. spent, held: nothing was put; an earlier value, if
    // any, is still there.
    [[nodiscard]] Stored insert_or_assign(Key key, const V &value) noexcept(never_throws) {
        return put(key, value, Life());
    }
    // Removes a key. ok or absent: it is gone. Otherwise nothing was done, and the key may still be there. held, busy, changed: other threads were
    // first each time: call again until it is ok or absent. If nobody may get the key until then, keep it in a set of your own and refuse it, as in
    // map_logout.cpp. spent: open a new map. If a store is behind the map, change the store first: then no older value is put afterwards by
    // find_or_compute.
    [[nodiscard]] Status erase(Key key) noexcept(never_throws) {
        return extract(key).status;
    }
    // The same, with the value that it removed, if it is ok.
    [[nodiscard]] Found<V> extract(Key key) noexcept(never_throws) {
        return change(key, Found<V>{Status::closed, std::nullopt}, [&](Entries &entries, const auto &known) { return entries.extract(known); });
    }
    // Replaces the value of a key that is there by what the function makes of it, `V function(const V &)`, and returns that. No other change is
    // lost: if another thread is first, the function is called again, with the newer value. The function may return a
    // `std::optional<V>`. If that is empty, nothing is put: declined. Unless ok, nothing was put. absent: the key is not there, and the function was not called, unless another thread removed the key
    // meanwhile. held, busy, changed: as by `insert`. spent, closed.
    template <class Function> [[nodiscard]] Found<V> update(Key key, Function function) {
        return update(key, nullptr, function, Life());
    }
    // The same, but if the key is absent, puts `first`, and returns that. If another thread puts the key meanwhile, the function is called with the
    // value of that thread. Unless ok, nothing was put. The statuses are those of `update` and `insert`, without absent and present.
    template <class Function> [[nodiscard]] Found<V> update_or_insert(Key key, const V &first, Function function) {
        return update(key, &first, function, Life());
    }

    // The calls of a timed_map. They put as `insert` and `insert_or_assign` do, with a time to live of its own. A time of 0 or less is over at once, and
    // `forever` never.
    [[nodiscard]] Stored insert_for(Key key, const V &value, std::chrono::nanoseconds life) noexcept(never_throws) {
        return put_if_absent(key, value, Life(life));
    }
    [[nodiscard]] Stored insert_or_assign_for(Key key, const V &value, std::chrono::nanoseconds life) noexcept(never_throws) {
        return put(key, value, Life(life));
    }
    // Updates, and the entry lives for so long from now on. By `update` its time to live goes on.
    template <class Function> [[nodiscard]] Found<V> update_for(Key key, std::chrono::nanoseconds life, Function function) {
        return update(key, nullptr, function, Life(life));
    }

    // The key's value, or what the function computes, `V function()`, which is then put. Of several callers that miss the key one computes, and
    // the others wait for it; if its value is refused or its function throws, the next one computes. The function may call the map.
    // It may return a `std::optional<V>`. If that is empty, nothing is put: declined. stale: the key was changed while the function ran, or the caller
    // could not wait: the key's value is being computed by this thread, or by one that waits for what this thread computes, in any map; or it has waited
    // for `most_wait`. Then it computed for itself alone. present: another value was put meanwhile.
    template <class Function> [[nodiscard]] Computed<inside::Made<V, Function>> find_or_compute(Key key, Function function) {
        if (!inner_) {
            return {Status::closed, function(), true};
        }
        const inside::Identity known = inner_->identities.of(key);
        Words found;
        inside::Until until{};
        // The lookup that counts.
        for (Status status = inner_->entries.find(known, found); status != Status::ok; status = inner_->entries.seek(known, found)) {
            inside::Flight flight = inner_->entries.flights.begin(known, until);
            if (!flight.has_begun() && !flight.is_alone()) {
                continue;
            }
            const uint64_t generation = inner_->entries.generations.now();
            // Another flight may have ended between the lookup and the begin of this one.
            if (inner_->entries.seek(known, found) == Status::ok) {
                break;
            }
            const std::optional<V> value = inner_->entries.template loaded<inside::may_decline<V, Function>>(function);
            const auto put = [&] { return inner_->entries.put_if_absent_in(generation, known, *value).status; };
            return inside::made_by<Function>(Computed<std::optional<V>>{value ? flight.land(put) : Status::declined, value, true});
        }
        return {Status::ok, *Entries::value_of(found), false};
    }

    // Calls `see(const K &, const V &)` with each entry, in no order. The map must have its keys as their own check words: they are numbers, enums,
    // pointers or structs of up to 8 bytes, and the hash is not yours. None of the entries counts as used. A key that is there throughout is shown once,
    // if others replace its value with the old one or the new one. What comes or goes meanwhile is shown or not. It lists all entries first, as `clear`
    // does. Unless ok, `see` was not called: held, no_memory, closed.
    template <class See> [[nodiscard]] Status for_each(See see) const {
        const auto shown = [&](uint64_t index, const Words &packed) { with_key(index, packed, see); };
        return inner_ ? inner_->entries.for_each(shown) : Status::closed;
    }
    // Removes each entry for which `leaves(const K &, const V &)` returns true, and counts them. Keys are as by `for_each`. If others replace a value
    // meanwhile, it is asked again of the new one. If it is ok, only what was put meanwhile may be there of what it accepts: no value that find_or_compute
    // was computing when the call began. It takes a turn for each entry. Unless ok, some entries were not asked of: held, no_memory, spent, closed.
    template <class Leaves> [[nodiscard]] Erased erase_if(Leaves leaves) {
        const auto asked = [&](uint64_t index, const Words &packed) {
            bool is_out = false;
            with_key(index, packed, [&](const K &key, const V &value) { is_out = leaves(key, value); });
            return is_out;
        };
        return inner_ ? inner_->entries.erase_if(asked) : Erased{Status::closed, 0};
    }

  private:
    // Calls with the key and the value of an entry, if it is of this generation. Of any other the words are no key's with that number.
    template <class Call> void with_key(uint64_t index, const Words &packed, Call &&call) const {
        constexpr bool has_keys = inside::is_own_word<Key, Hash>;
        static_assert(has_keys, "for_each and erase_if of a map give back keys of up to 8 bytes without a hash of yours; an object_map keeps all keys");
        if constexpr (has_keys) {
            const inside::Identity known = inside::in_generation({index, packed[0]}, inner_->entries.generations.now());
            // Other bits are no bool.
            if (std::is_same_v<K, bool> && known.check > 1) {
                return;
            }
            const K key = inside::object_from<K>({known.check});
            if (inside::is_same(inner_->identities.of(key), known)) {
                call(key, static_cast<const V &>(*Entries::value_of(packed)));
            }
        }
    }
    // A time to live that a call says, in a timed_map.
    using Life = typename Times::Life;

    template <class... Lived> Status open_with(const MapOptions &options, Hash hash, const Lived &...lives) noexcept {
        return this->open_as(options, [&] { return std::make_unique<Inner>(std::move(hash), Times(lives...)); });
    }
    Stored put_if_absent(Key key, const V &value, const Life &life) noexcept(never_throws) {
        return change(key, Stored{Status::closed, false, false}, [&](Entries &entries, const auto &known) { return entries.put_if_absent(known, value, life); });
    }
    Stored put(Key key, const V &value, const Life &life) noexcept(never_throws) {
        return change(key, Stored{Status::closed, false, false}, [&](Entries &entries, const auto &known) { return entries.put(known, value, life); });
    }
    // A flight may begin while the user's function runs: after another thread has removed the key. It may not see what the function does. So after
    // the function it is outdated, too.
    template <class Function> Found<V> update(Key key, const V *first, Function &function, const Life &life) {
        return change(key, Found<V>{Status::closed, std::nullopt}, [&](Entries &entries, const auto &known) {
            const auto outdating = [&](const V &old) {
                const inside::Made<V, Function, const V &> value = function(old);
                entries.flights.outdate(known);
                return value;
            };
            return entries.update(known, first, outdating, life);
        });
    }

    Status seek(Key key, Words &packed) const noexcept(never_throws) {
        return inner_ ? inner_->entries.find(inner_->identities.of(key), packed) : Status::closed;
    }
    // Changes a key's entry by `make`, and outdates its flight first. `closed`: the answer of a map that is not open.
    template <class Result, class Change> Result change(Key key, Result closed, Change make) {
        if (!inner_) {
            return closed;
        }
        Inner &inner = *inner_;
        const inside::Identity known = inner.identities.of(key);
        inner.entries.flights.outdate(known);
        return make(inner.entries, known);
    }

    // Each fault has one message. A type that is too large or not trivial gets no second one. Clang skips the members after a failed assertion, so
    // these come last.
    static constexpr bool is_small = words_of<V> <= 7, is_plain = std::is_trivially_copyable_v<V> && words_of<V> + Times::moments <= 7;
    static_assert(std::is_trivially_copyable_v<V>, "a map's value is trivially copyable: keep an index or a pointer of other objects");
    static_assert(!std::is_trivially_copyable_v<V> || is_small, "a map's value has up to 56 bytes");
    static_assert(!std::is_trivially_copyable_v<V> || !is_small || is_plain, "a timed_map's value has up to 40 bytes");
    static_assert(!is_plain || has_no_padding<V>,
                  "a map's value has no padding: make the padding a member, or see has_no_padding in cefrodil/inside/values.hpp");
    static_assert(!is_plain || std::is_default_constructible_v<V>, "a map's value is default-constructible");
    static_assert(!is_plain || !std::is_default_constructible_v<V> || !has_no_padding<V> || is_map_value<V>,
                  "a map's value can be copied and assigned: it is no array, but may be a std::array, and is not const");
    static_assert(inside::hashes<Hash, inside::Taken<K, Hash>>,
                  "a map's hash has a call `HashPair operator()(const K &, const HashSecret &) const`, or `uint64_t operator()(const K &, "
                  "uint64_t seed) const`");
};

// A map whose entries end. It has all calls of a map.
template <class K, class V, class Hash = SipHash<K>> using timed_map = map<K, V, Hash, inside::Timed>;

} // namespace cefrodil

#endif
