// A cache as a map of objects: keys and values of any type and size. The values are never copied or moved once they are in the map. A new key evicts
// another one when its shard is full.
//
//     #include "cefrodil_object_map.hpp"
//     int main() {
//         cefrodil::object_map<std::string, std::unique_ptr<Page>> pages;
//         if (pages.open({1000}) != cefrodil::Status::ok) { return 1; }
//         const cefrodil::Stored stored = pages.insert("home", std::make_unique<Page>()); // stored.status: ok, or why not
//         const cefrodil::Status seen = pages.look("home", [](const auto &page) { page->print(); });
//         const cefrodil::Status erased = pages.erase("home"); // neither ok nor absent: call again
//     }
//
// A bound on memory: give `open` a weigher and a bound, as in map_session_store.cpp.
//     decltype(pages)::Rules rules;
//     rules.weigher = [](const std::string &url, const auto &page) { return url.size() + page->size(); };
//     rules.most_weight = 1000000;
//     const cefrodil::Status opened = pages.open({1000}, rules);
// The map then holds 1,000 pages or more, as long as they weigh no more than the bound together. While calls put, the sum may be above the bound by what
// they put. What has left and waits to be freed weighs a sixteenth of the bound and one object more for each thread that writes at most, while no
// function of `look`, `look_many`, `peek`, `update`, `for_each` or `erase_if` runs. If a thread is stopped within a write, the sum may stay above the bound until a
// later put. A put that fails may have made others leave. Of a few shards the one with the most objects chooses what leaves, so all keep nearly as many.
// Ask for at least as many entries as weigh so much together: room for more takes memory alone.
//
// Which objects leave: those that no call has found since their put. So keys that are used once evict few that are used often. If nearly all were found,
// one that was not found lately leaves: perhaps the one that an update has made heavier. An object whose key left shortly before its put counts as found.
//
// Entries that end: `rules.lives.time_to_live = std::chrono::minutes(30)`. A put begins the time anew, also over a value, and may say another time:
// `insert_for`. An update does not, but `update_for` does. `time_to_idle` ends what no call has found or put for so long. What has expired is absent for
// all calls. It stays until it is overwritten or evicted, or removed by `erase` or `erase_expired`; the listener then hears `Left::expired`. In a map with
// lives each call that puts or updates removes it at two places of its shard, as in a timed_map. A call that finds an object begins its time to idle anew if a sixteenth of it has passed. So an entry may end a sixteenth of its time to idle sooner.
//
// This header is plain C++ and is not proved. The index below it is. The map's own part is an argument by hand: map/SAFETY.md of Cefrodil's repository.
// Whoever finds an object keeps it until its call ends. An object that has left the map is freed by a later call that writes, once no call can have
// found it. So a value's destructor runs in any thread that writes, and under no lock of the map. It may call the map: what is freed then is freed once it
// has ended. While a function of `look` or `look_many` runs, all objects that leave the map wait for it, above any bound, and so do up to 32 of each thread
// that left shortly before. For anything that may block, take a `pin`: it keeps one object alone. `waiting` and `waiting_weight` say how
// many objects wait, and `meter` does.
//
// Among very many objects a hit waits for the memory of its object, and less if GLIBC_TUNABLES has glibc.malloc.hugetlb=1: then malloc of glibc asks for
// huge pages.
//
// Keys are compared. Two keys whose hashes of 64 bits are the same can't be in the map at once: the later one replaces the earlier.
//
// It can be compiled with -fno-exceptions and -fno-rtti. Then a put that finds no memory for its object returns no_memory all the same. If a call finds no
// memory for anything else, the program ends.
//
// The listener may call the map. If it writes, it hears of what leaves then, within itself. Within 16 listeners of a thread its writes are refused:
// `too_deep`.
//
// What you promise is what cefrodil_map.hpp lists, and: keys and values may be read by several threads at once, and destroyed by any of them. The
// listener and destructors throw nothing. The weigher and `Equal` don't call the map. No key or value that is destroyed by `close` or by the map's
// destructor calls the map, nor does what a pin keeps longer than the map. A reference that `look` passes is not kept.
//
// No call throws, but what your functions and types throw. What a throw leaves behind:
// - `insert_or_assign`: if `Equal` throws, the value was put. Otherwise the map is as it was.
// - `erase` with a function: if the function throws, the key is removed. If `Equal` throws, the map is as it was.
// - `find_or_compute`: if a copy or a move of a V throws, its value may have been put. Otherwise the map is as it was, and the next caller computes.
// - `erase_if`: what it has removed stays removed.
// - Any other call: the map is as it was. A V that was moved to a put may be lost with it.
#ifndef CEFRODIL_OBJECT_MAP_HPP
#define CEFRODIL_OBJECT_MAP_HPP

#include "cefrodil/inside/object_calls.hpp"
#include "cefrodil_map.hpp"
#include <algorithm>
#include <array>
#include <functional>
#include <memory>
#include <new>
#include <optional>
#include <type_traits>
#include <utility>

namespace cefrodil {

// A map of K to V. A hash of yours is as that of cefrodil::map; `Equal` compares a K with what a call takes as a key.
template <class K, class V, class Hash = SipHash<K>, class Equal = std::equal_to<>>
class object_map : public inside::ObjectCalls<K, V, Hash, Equal> {
    using Calls = inside::ObjectCalls<K, V, Hash, Equal>;
    using Calls::generation;
    using Calls::inner_;
    using Calls::look_up;
    using Calls::own;
    using typename Calls::Change;
    using typename Calls::Inner;
    using typename Calls::Objects;
    using typename Calls::Own;
    using typename Calls::Pinned;
    using typename Calls::Seen;

  public:
    // How a call takes a key. A string is taken as a view.
    using Key = inside::Taken<K, Hash>;
    // What the map does beside keeping objects: a listener, and a bound on weights.
    using Rules = ObjectRules<K, V>;
    using Listener = decltype(Rules::listener);

    object_map() noexcept {}

    // Opens the map, empty. Statuses are those of cefrodil::map.
    [[nodiscard]] Status open(const MapOptions &options, Listener listener = nullptr, Hash hash = Hash()) noexcept {
        Rules rules;
        rules.listener = std::move(listener);
        return open(options, std::move(rules), std::move(hash));
    }
    [[nodiscard]] Status open(const MapOptions &options, Rules rules, Hash hash = Hash()) noexcept {
        return this->open_as(options, [&] { return std::make_unique<Inner>(std::move(hash), std::move(rules)); });
    }

    // Calls `see(const V &)` with the key's value. ok, or absent, busy or closed: then it was not called. The value stays for so long, though another
    // thread may remove it meanwhile.
    template <class See> [[nodiscard]] Status look(Key key, See see) const {
        if (!inner_) {
            return Status::closed;
        }
        Pinned pinned(inner_->entries);
        const inside::Identity known = inner_->identities.of(key);
        const Seen seen = look_up(pinned, known, key, inner_->entries.looks(), generation());
        pinned.count(seen.status);
        if (seen.status == Status::ok) {
            see(static_cast<const V &>(seen.object->value));
        }
        return seen.status;
    }
    // The key's value, which this one handle keeps: nothing else that leaves the map waits for it, and it may be kept for long. Neither `weight` nor
    // `waiting` counts what has left and is kept so. Null if `look` would not call: it is a lookup as that.
    [[nodiscard]] pinned<V> pin(Key key) const {
        if (!inner_) {
            return nullptr;
        }
        const Pinned call(inner_->entries);
        const Seen seen = look_up(call, inner_->identities.of(key), key, inner_->entries.looks(), generation());
        call.count(seen.status);
        return seen.status == Status::ok ? inside::pin_of(*seen.object) : nullptr;
    }
    // The same, but the value doesn't count as used: it leaves as if nobody had looked, and its time to idle goes on. It takes the turn at the key's
    // shard, as a write does. ok, or absent, held or closed: then `see` was not called.
    template <class See> [[nodiscard]] Status peek(Key key, See see) const {
        if (!inner_) {
            return Status::closed;
        }
        Pinned pinned(inner_->entries);
        const Seen seen = own(pinned.peek(inner_->identities.of(key).index, generation()), key);
        if (seen.status == Status::ok) {
            see(static_cast<const V &>(seen.object->value));
        }
        return seen.status;
    }
    // A copy of the key's value, if it is there.
    [[nodiscard]] std::optional<V> find(Key key) const {
        std::optional<V> found;
        static_cast<void>(look(key, [&](const V &value) { found.emplace(value); }));
        return found;
    }
    // The same, with the status of `look`.
    [[nodiscard]] Found<V> get(Key key) const {
        Found<V> found{Status::closed, std::nullopt};
        found.status = look(key, [&](const V &value) { found.value.emplace(value); });
        return found;
    }
    // The same, with `peek`.
    [[nodiscard]] Found<V> peek(Key key) const {
        Found<V> found{Status::closed, std::nullopt};
        found.status = peek(key, [&](const V &value) { found.value.emplace(value); });
        return found;
    }
    [[nodiscard]] bool contains(Key key) const {
        return look(key, [](const V &) {}) == Status::ok;
    }
    // Calls `see(n, const V &)` with the value of each of `count` keys that is there, by the number of the key, and returns how many are. It makes fewer calls
    // of the index than `look` does. `Each` is what a call takes as a key. What leaves the map meanwhile waits for it, as for `look`.
    template <class Each, class See> size_t look_many(const Each *keys, size_t count, See see) const {
        size_t found = 0;
        for (size_t begin = 0; inner_ && begin < count; begin += inside::few_keys) {
            found += this->look_few(keys + begin, std::min(count - begin, inside::few_keys), [&](size_t n, const V &value) { see(begin + n, value); });
        }
        return found;
    }
    // Writes copies to `values`, as `find` returns them.
    template <class Each> size_t find_many(const Each *keys, size_t count, std::optional<V> *values) const {
        std::fill_n(values, count, std::nullopt);
        return look_many(keys, count, [&](size_t n, const V &value) { values[n].emplace(value); });
    }

    // Puts a key that is absent. Statuses are those of cefrodil::map, and no_memory, and too_heavy: it weighs more than the bound. Unless ok, a V that
    // was moved here is moved back, if it can be assigned so.
    template <class Value = V> [[nodiscard]] Stored insert(Key key, Value &&value) {
        return this->template put<Value>(key, value, std::nullopt, [&](const auto &known, Own &object, Change &change) { return this->put_new(known, key, object, change); });
    }
    // Puts a key, whether it is there or not. Unless ok, an earlier value is still there.
    template <class Value = V> [[nodiscard]] Stored insert_or_assign(Key key, Value &&value) {
        return this->template put<Value>(key, value, std::nullopt, [&](const auto &known, Own &object, Change &change) { return inner_->entries.put(known.index, object, change); });
    }
    // The same, with a time to live of its own, in any map. A time of 0 or less is over at once, and `forever` never.
    template <class Value = V> [[nodiscard]] Stored insert_for(Key key, Value &&value, std::chrono::nanoseconds life) {
        return this->template put<Value>(key, value, life, [&](const auto &known, Own &object, Change &change) { return this->put_new(known, key, object, change); });
    }
    template <class Value = V> [[nodiscard]] Stored insert_or_assign_for(Key key, Value &&value, std::chrono::nanoseconds life) {
        return this->template put<Value>(key, value, life, [&](const auto &known, Own &object, Change &change) { return inner_->entries.put(known.index, object, change); });
    }
    // Replaces the value of a key that is there by what the function makes of it, `V function(const V &)`. If another thread is first, it is called
    // again. Or it is `std::optional<V> function(const V &)`. If that returns none, the status is `declined`. Unless ok, the old value stays. absent: the
    // key is not there. too_heavy: the new value is. held, busy, changed: other threads were first each time. no_memory, closed.
    template <class Function> [[nodiscard]] Status update(Key key, Function function) { return this->renew(key, std::nullopt, function); }
    // The same, and the entry lives for so long from now on. By `update` its time to live goes on.
    template <class Function> [[nodiscard]] Status update_for(Key key, std::chrono::nanoseconds life, Function function) {
        return this->renew(key, life, function);
    }
    // Removes a key. ok or absent: it is gone. Otherwise nothing was done, and the key may still be there. held, busy, changed: other threads were first
    // each time: call again. spent: open a new map. closed.
    [[nodiscard]] Status erase(Key key) {
        return erase(key, [](const V &) {});
    }
    // The same, and if it is ok, calls `see(const V &)` with the value that it removed. Other calls that found it may still use it.
    template <class See> [[nodiscard]] Status erase(Key key, See see) {
        return this->take(key, [&](const auto &object) { see(object.value); });
    }
    // The same, and it gives back the value that it removed, pinned: other calls that found it may still use it.
    [[nodiscard]] Extracted<V> extract(Key key) {
        Extracted<V> extracted{Status::closed, nullptr};
        extracted.status = this->take(key, [&](auto &object) { extracted.value = inside::pin_of(object); });
        return extracted;
    }
    // The key's value, or what the function computes, which is then put, as by cefrodil::map. V must be copyable.
    template <class Function> [[nodiscard]] Computed<inside::Made<V, Function>> find_or_compute(Key key, Function function) {
        if (!inner_) {
            return {Status::closed, function(), true};
        }
        if (std::optional<V> found = find(key)) {
            return {Status::ok, std::move(*found), false};
        }
        using Answer = Computed<std::optional<V>>;
        const auto again = [&] { return this->seek(key, [](auto &object) { return std::optional<V>(object.value); }); };
        return inside::made_by<Function>(this->template computed<std::optional<V>>(key, again, [&](Own &object, uint64_t begun, const auto &land) {
            if constexpr (inside::may_decline<V, Function>) {
                std::optional<V> value = inner_->entries.template loaded<true>(function);
                object = value ? this->made(key, begun, [&]() -> const V & { return *value; }) : Own();
                const Status status = value ? land() : Status::declined;
                return Answer{status, std::move(value), true};
            } else {
                V value = inner_->entries.template loaded<false>(function);
                object = this->made(key, begun, [&]() -> const V & { return value; });
                const Status status = land();
                return Answer{status, std::move(value), true};
            }
        }));
    }
    // The same, pinned, so V needs no copies. What was computed is pinned also if it was not put. Null: the map is closed, the function declined, or there
    // was no memory: then it was not called, or its value is lost.
    template <class Function> [[nodiscard]] Computed<pinned<V>> pin_or_compute(Key key, Function function) {
        if (!inner_) {
            return {Status::closed, nullptr, false};
        }
        if (pinned<V> found = pin(key)) {
            return {Status::ok, std::move(found), false};
        }
        using Answer = Computed<pinned<V>>;
        const auto again = [&] { return this->seek(key, [](auto &object) { return inside::pin_of(object); }); };
        return this->template computed<pinned<V>>(key, again, [&](Own &object, uint64_t begun, const auto &land) {
            if constexpr (inside::may_decline<V, Function>) {
                std::optional<V> value = inner_->entries.template loaded<true>(function);
                if (!value) {
                    return Answer{Status::declined, nullptr, true};
                }
                object = this->made(key, begun, [&] { return std::move(*value); });
            } else {
                object = this->made(key, begun, [&] { return inner_->entries.template loaded<false>(function); });
            }
            pinned<V> pin = object ? inside::pin_of(*object) : nullptr;
            const bool is_computed = bool(pin);
            const Status status = land();
            return Answer{status, std::move(pin), is_computed};
        });
    }

    // Calls `see(const K &, const V &)` with each entry, as that of cefrodil::map does. What leaves the map meanwhile waits for it, as for `look`.
    template <class See> [[nodiscard]] Status for_each(See see) const {
        return inner_ ? inner_->entries.for_each([&](const inside::Object<K, V> &object) { see(object.key, object.value); }) : Status::closed;
    }
    // Removes each entry for which `leaves(const K &, const V &)` returns true, as that of cefrodil::map does, or says too_deep.
    template <class Leaves> [[nodiscard]] Erased erase_if(Leaves leaves) {
        const auto asked = [&](const inside::Object<K, V> &object) -> bool { return leaves(object.key, object.value); };
        return inner_ ? inner_->entries.erase_if(asked) : Erased{Status::closed, 0};
    }

    // Frees what has left the map and no call can use any more. Other calls do so now and then. Returns how many objects. Within a destructor that runs
    // because the map frees its object, it returns 0, and they are freed once the destructor has ended.
    size_t free_unused() noexcept { return inner_ ? inner_->entries.free_now() : 0; }

    // Changes the bound on the sum of the weights, and evicts what is too much. held: not all of it, as other threads were first; the next put goes on.
    // Without a weigher there is no bound. too_deep, closed.
    [[nodiscard]] Status set_most_weight(uint64_t most) noexcept { return inner_ ? inner_->entries.set_most_weight(most) : Status::closed; }
    // The sum of the weights, exact while no call writes. What other calls are about to put counts, and what has left does not, though it may wait to
    // be freed. Without a weigher 0.
    uint64_t weight() const noexcept { return inner_ ? inner_->entries.weight() : 0; }
    // How many objects have left the map and wait to be freed, and what they weigh. `meter` has the same.
    uint64_t waiting() const noexcept { return inner_ ? inner_->entries.waiting() : 0; }
    uint64_t waiting_weight() const noexcept { return inner_ ? inner_->entries.waiting_weight() : 0; }

  private:
    static_assert(std::is_object_v<K> && std::is_object_v<V> && !std::is_const_v<V>, "keys and values are objects");
    static_assert(std::is_nothrow_destructible_v<K> && std::is_nothrow_destructible_v<V>, "destructors of keys and values throw nothing");
    static_assert(inside::hashes<Hash, inside::Taken<K, Hash>>, "a hash has the call that cefrodil::map asks for");
};

} // namespace cefrodil

#endif
