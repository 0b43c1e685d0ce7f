// The calls of a map of objects that take several steps, for cefrodil_object_map.hpp.
#ifndef CEFRODIL_INSIDE_OBJECT_CALLS_HPP
#define CEFRODIL_INSIDE_OBJECT_CALLS_HPP

#include "../../cefrodil_map.hpp"
#include "objects.hpp"
#include <algorithm>
#include <array>
#include <optional>
#include <type_traits>
#include <utility>

namespace cefrodil::inside {

template <class K, class V, class Hash, class Equal> class ObjectCalls : public AnyMap<Opened<K, Hash, Objects<K, V>>> {
  protected:
    using Inner = Opened<K, Hash, inside::Objects<K, V>>;
    using AnyMap<Inner>::inner_;
    using Key = Taken<K, Hash>;
    using Objects = inside::Objects<K, V>;
    using Pinned = typename Objects::Pinned;
    using Seen = typename Objects::Seen;
    using Change = typename Objects::Change;
    using Own = typename Objects::Own;
    // A time to live that a call says, or that of the map.
    using Life = std::optional<std::chrono::nanoseconds>;

    uint64_t generation() const noexcept { return inner_->entries.generations.now(); }
    // An object of another key with the same number is none of this key's.
    static Seen own(Seen seen, Key key) {
        const bool is_other = seen.status == Status::ok && !Equal()(seen.object->key, key);
        return is_other ? Seen{Status::absent, nullptr, seen.since} : seen;
    }
    // The key's object. Compiled into its callers: a call costs a tenth of a lookup.
    [[gnu::always_inline]] static Seen look_up(const Pinned &pinned, const Identity &known, Key key, const uint32_t &most, uint64_t begun) {
        return own(pinned.look(known.index, most, begun), key);
    }
    // Looks a few keys up, by one call of the index, and counts each lookup. Calls `see` with the key's number and each value found. Returns how many.
    template <class Each, class See> size_t look_few(const Each *keys, size_t count, const See &see) const {
        std::array<Identity, few_keys> known;
        std::array<Seen, few_keys> seen;
        std::transform(keys, keys + count, known.begin(), [&](const Each &key) { return inner_->identities.of(key); });
        const Pinned pinned(inner_->entries);
        pinned.look_few(known.data(), count, generation(), seen.data());
        size_t found = 0;
        for (size_t n = 0; n < count; n++) {
            seen[n] = own(seen[n], keys[n]);
            pinned.count(seen[n].status);
            if (seen[n].status == Status::ok) {
                see(n, static_cast<const V &>(seen[n].object->value));
                found++;
            }
        }
        return found;
    }
    // `erase` for a function of an object.
    template <class See> Status take(Key key, See see) {
        if (!inner_) {
            return Status::closed;
        }
        const Identity known = inner_->identities.of(key);
        Objects &objects = inner_->entries;
        objects.flights.outdate(known);
        Status seen = Status::absent;
        const auto find = [&] {
            const Seen found = look_to_take(known, key);
            seen = found.status;
            return inside::Seen{found.object != nullptr ? Status::ok : seen, found.since};
        };
        const Status status = objects.take_found(find, [&](uint64_t since) {
            Change change(objects);
            const Status taken = objects.take(known.index, since, change);
            if (taken == Status::ok && seen == Status::ok) {
                see(*change.old);
            }
            return taken;
        });
        return status == Status::ok ? seen : status;
    }
    // The key's object, for its removal, which does not begin its time to idle anew. If it has ended it is absent, but is removed all the same: an update that found it before
    // must not renew it.
    Seen look_to_take(const Identity &known, Key key) {
        const uint64_t now = generation();
        Pinned pinned(inner_->entries);
        const Seen seen = pinned.look_at_all(known.index, inner_->entries.tries());
        // This acquires what the object was made with, before its key is compared.
        const bool has_ended = seen.object != nullptr && inner_->entries.has_ended(*seen.object, now);
        Seen taken = own(seen, key);
        if (taken.object != nullptr && has_ended) {
            taken.status = Status::absent;
        }
        return taken;
    }
    // Puts a key that is absent, or says `present`. What is there gives way if it has ended, or is another key's.
    Status put_new(const Identity &known, Key key, Own &object, Change &change, bool is_computed = false) {
        Objects &objects = inner_->entries;
        for (uint32_t repeat = 0;; repeat++) {
            const Seen seen = look_up(Pinned(objects), known, key, objects.tries(), object->generation());
            if (seen.status != Status::absent) {
                return seen.status == Status::ok ? Status::present : seen.status;
            }
            const Status status = objects.put_new(known.index, seen.since, object, is_computed, change);
            if (!is_lost(status)) {
                if (change.renewed) {
                    objects.gave_way(change);
                }
                return status;
            }
            if (repeat >= objects.tries()) {
                return Status::changed;
            }
        }
    }
    // Makes an object of what the function makes of the key's value. `seen`: what it looked up.
    template <class Function>
    [[gnu::always_inline]] Own made_of(const Identity &known, Key key, const Life &life, Function &function, uint64_t begun, Seen &seen) {
        Objects &objects = inner_->entries;
        Pinned pinned(objects);
        seen = look_up(pinned, known, key, objects.tries(), begun);
        if (seen.status != Status::ok) {
            return Own();
        }
        const auto made = [&] { return function(static_cast<const V &>(seen.object->value)); };
        // It has the generation of what it replaces.
        const auto make = [&](const auto &give) {
            const uint64_t deadline = life ? objects.deadline(life) : Objects::deadline_of(*seen.object);
            return objects.make(key, give, seen.object->generation(), deadline);
        };
        if constexpr (std::is_same_v<decltype(made()), std::optional<V>>) {
            std::optional<V> next = made();
            seen.status = next ? Status::ok : Status::declined;
            return next ? make([&] { return std::move(*next); }) : Own();
        } else {
            return make(made);
        }
    }
    // What `take` makes of the key's object, if it is there. It isn't counted.
    template <class Take> auto seek(Key key, Take take) const -> decltype(take(std::declval<Object<K, V> &>())) {
        const Pinned pinned(inner_->entries);
        const Seen seen = look_up(pinned, inner_->identities.of(key), key, inner_->entries.looks(), generation());
        if (seen.status != Status::ok) {
            return {};
        }
        return take(*seen.object);
    }
    // An object with the map's own time to live. None without memory: then the function is not called.
    template <class Give> Own made(Key key, uint64_t generation, const Give &give) const {
        return inner_->entries.make(key, give, generation, inner_->entries.deadline({}));
    }
    // What `make` computes for a key that was not there, if no other call does so now, or else what `again` finds then. `make` may make an object, and
    // calls the function that it gets, which puts that and ends the flight.
    template <class Found, class Again, class Make> Computed<Found> computed(Key key, Again again, Make make) {
        const Identity known = inner_->identities.of(key);
        Until until{};
        for (;;) {
            // No listener and no destructor runs while others wait for the flight, unless something throws.
            Change change(inner_->entries);
            Own object;
            Flight flight = inner_->entries.flights.begin(known, until);
            const uint64_t begun = generation();
            // Another flight may have ended before this one has begun.
            if (Found found = again()) {
                flight.end();
                return {Status::ok, std::move(found), false};
            }
            if (flight.has_begun() || flight.is_alone()) {
                return make(object, begun, [&] {
                    const Status status = object ? flight.land([&] { return put_new(known, key, object, change, true); }) : Status::no_memory;
                    flight.end();
                    return status;
                });
            }
        }
    }
    // Replaces the value, until no other thread is first.
    template <class Function> Status renew(Key key, const Life &life, Function &function) {
        if (!inner_) {
            return Status::closed;
        }
        const Identity known = inner_->identities.of(key);
        inner_->entries.flights.outdate(known);
        const uint64_t begun = generation();
        for (uint32_t repeat = 0;; repeat++) {
            Seen seen{};
            Change change(inner_->entries);
            Own object = made_of(known, key, life, function, begun, seen);
            if (seen.status != Status::ok) {
                return seen.status;
            }
            // A flight may have begun while the function ran.
            inner_->entries.flights.outdate(known);
            const Status status = object ? inner_->entries.replace(known.index, seen.since, object, change) : Status::no_memory;
            if (!is_lost(status)) {
                return status;
            }
            if (repeat >= inner_->entries.tries()) {
                return Status::changed;
            }
        }
    }
    // Makes an object, and puts it.
    template <class Value, class Put> [[gnu::always_inline]] Stored put(Key key, std::remove_reference_t<Value> &value, const Life &life, Put make) {
        if (!inner_) {
            return {Status::closed, false, false};
        }
        const Identity known = inner_->identities.of(key);
        const auto give = [&]() -> Value && { return std::forward<Value>(value); };
        Objects &objects = inner_->entries;
        Own object = objects.make(key, give, generation(), objects.deadline(life));
        if (!object) {
            return {Status::no_memory, false, false};
        }
        inner_->entries.flights.outdate(known);
        Change change(objects);
        const Status status = make(known, object, change);
        if constexpr (std::is_same_v<Value, V> && std::is_move_assignable_v<V>) {
            if (object) {
                value = std::move(object->value);
            }
        }
        if (change.renewed && !Equal()(change.old->key, key)) {
            objects.gave_way(change);
        }
        return {status, change.renewed, change.evicted};
    }
};

} // namespace cefrodil::inside

#endif
