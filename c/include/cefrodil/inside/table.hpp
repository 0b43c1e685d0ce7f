// The entries of a map, for cefrodil_map.hpp: its calls by the numbers of keys in the index.
#ifndef CEFRODIL_INSIDE_TABLE_HPP
#define CEFRODIL_INSIDE_TABLE_HPP

#include "entries.hpp"
#include "hash.hpp"
#include "lives.hpp"
#include "values.hpp"
#include <algorithm>
#include <array>
#include <cstddef>
#include <cstdint>
#include <cstring>
#include <memory>
#include <optional>

namespace cefrodil {

// The answer of a lookup, and of an update. `value` is there if the status is ok.
template <class V> struct Found {
    Status status;
    std::optional<V> value;
};

namespace inside {

// How an entry lies in the words of the index: the check word of its key, the moments at which it ends, if it has any, and then its value.
template <class V, size_t Moments> struct Packing {
    // A larger value has no map, and gets no second message from the index.
    static constexpr size_t words = std::min<size_t>(8, 1 + Moments + words_of<V>);
    using Words = std::array<uint64_t, words>;
    using Ends = std::array<uint64_t, Moments>;

    static Words pack(const Identity &key, const Ends &ends, const V &value) noexcept {
        Words packed;
        packed[0] = key.check;
        packed.back() = 0; // if the value has part of it
        std::memcpy(packed.data() + 1 + Moments, static_cast<const void *>(std::addressof(value)), sizeof(V));
        set_ends(packed, ends);
        return packed;
    }
    static void set_ends(Words &packed, const Ends &ends) noexcept { std::copy(ends.begin(), ends.end(), packed.begin() + 1); }
    static Ends ends_of(const Words &packed) noexcept {
        Ends ends{};
        std::copy_n(packed.begin() + 1, Moments, ends.begin());
        return ends;
    }
    // The value is copied once, to where it stays.
    static std::optional<V> value_of(const Words &packed) noexcept {
        std::optional<V> value;
        std::memcpy(static_cast<void *>(std::addressof(value.emplace())), packed.data() + 1 + Moments, sizeof(V));
        return value;
    }
};

// A key as its entries of this generation have it: with another check word in each. The multiplier is odd, so no two generations have the same words.
inline Identity in_generation(const Identity &key, uint64_t generation) noexcept {
    return {key.index, key.check ^ generation * 0x9e3779b97f4a7c15};
}

// The entries of a map. `Times`: when they end, Timeless or Timed.
template <class V, class Times = Timeless>
class Table : public Entries<Packing<V, Times::moments>::words>, private Packing<V, Times::moments>, private Times {
    using Own = Packing<V, Times::moments>;
    using Own::words, Own::pack, Own::ends_of, Own::set_ends;
    using typename Own::Ends;
    using All = Entries<words>;
    using All::each_listed;

  public:
    using All::generations;
    using typename Own::Words;
    using Own::value_of;
    using Life = typename Times::Life;

    // What is under a key's number. ok: the key's value, and the moment of its put. absent: if `since` is not 0, another key's entry is there, or one of
    // another generation, or one that has expired.
    struct Entry {
        Status status;
        std::optional<V> value;
        uint64_t since;
        Ends ends;
        bool has_expired; // absent: the entry is the key's, and of this generation
    };

    Table() = default;
    explicit Table(const Times &times) : Times(times) {}

    [[nodiscard]] Status open(uint32_t entries, uint32_t shards, uint32_t passes, uint32_t tries) noexcept {
        const Status status = All::open(entries, shards, passes, tries);
        return status == Status::ok && Times::moments != 0 && !this->open_cursors() ? Status::no_memory : status;
    }

    // A lookup for the words of its entry, which are set if the status is ok. If it stays busy, that is a miss. It is counted. The key is passed in
    // registers: the index would wait for it in memory.
    Status find(Identity key, Words &packed) noexcept {
        Slot<words> *const slot = this->own_slot();
        if (slot == nullptr) {
            return find_shared(key, packed);
        }
        const Status status = seek_by(slot, key, packed);
        slot->count(status == Status::ok ? hits : static_cast<Counted>(status), 1);
        return status;
    }
    // The same, but it isn't counted.
    Status seek(Identity key, Words &packed) noexcept { return seek_by(this->own_slot(), key, packed); }
    // Looks a few keys up, by one call of the index. Each is counted. Sets the values that are there. A key that is busy is looked up again by itself.
    void find_few(const Identity *keys, size_t count, std::optional<V> *values) noexcept {
        std::array<Words, few_keys> found;
        std::array<cefrodil_answer, few_keys> answers;
        const uint64_t generation = generations.now();
        this->get_few(keys, count, found.data(), answers.data());
        uint64_t hits = 0, misses = 0;
        for (size_t i = 0; i < count; i++) {
            const bool is_found = answers[i].status == CEFRODIL_OK;
            if (is_found ? Times::is_due(ends_of(found[i])) : answers[i].status == CEFRODIL_BUSY) {
                const Status status = find(keys[i], found[i]);
                values[i] = status == Status::ok ? value_of(found[i]) : std::nullopt;
            } else if (is_found && is_there(in_generation(keys[i], generation), found[i])) {
                values[i] = value_of(found[i]);
                hits++;
            } else {
                misses++;
            }
        }
        Slot<words> *const slot = this->own_slot();
        this->count(slot, inside::hits, hits);
        this->count(slot, inside::misses, misses);
    }
    // A lookup that is no use of the key. It is repeated as often as a put.
    Found<V> peek(const Identity &key) noexcept {
        const Identity known = now(key);
        const Answer<words> answer = this->repeated([&](Slot<words> &slot) { return slot.handle.try_peek(key.index); });
        Found<V> found{answer.status, std::nullopt};
        if (answer.value && is_there(known, *answer.value)) {
            found.value = value_of(*answer.value);
        } else if (answer.value) {
            found.status = Status::absent;
        }
        return found;
    }
    // A lookup for a write, which is repeated as often as a put. The key is as its entries of one generation have it.
    [[gnu::noinline]] Entry look(const Identity &known) noexcept {
        Entry entry{};
        Words packed;
        const Seen seen = this->get(this->own_slot(), known.index, this->tries(), packed);
        entry.status = seen.status, entry.since = seen.since;
        if (seen.status == Status::ok && is_there(known, packed)) {
            entry.value = value_of(packed);
            entry.ends = ends_of(packed);
        } else if (seen.status == Status::ok) {
            entry.status = Status::absent;
            entry.has_expired = packed[0] == known.check;
        }
        return entry;
    }
    // Puts whatever is there. The generation is read with the key's lock, so what gives way is of no newer one.
    Stored put(const Identity &key, const V &value, const Life &life = {}) noexcept {
        sweep(key.index);
        const Ends ends = Times::ends(life);
        if (this->is_full()) {
            return kept(key.index, put_bounded(key, value, ends));
        }
        return kept(key.index, this->locked(key.index, [this, key, ends, &value](Slot<words> &slot) {
            return slot.put(key.index, pack_in(generations.now(), key, ends, value));
        }));
    }
    // Puts if the key is absent. An entry of an older generation gives way, and so does another key's entry under the same number.
    Stored put_if_absent(const Identity &key, const V &value, const Life &life = {}) noexcept {
        sweep(key.index);
        return put_absent(key, value, life);
    }
    // The same, as an entry of this generation. stale: a newer one has begun.
    Stored put_if_absent_in(uint64_t generation, const Identity &key, const V &value) noexcept {
        sweep(key.index);
        return put_new(key, value, Times::ends({}), [generation] { return generation; });
    }

    // Puts what the function makes of the key's value, if it makes one. If the key is absent, puts `first`, or nothing if that is null. The new entry has the generation in
    // which the old one was found.
    template <class Function> Found<V> update(const Identity &key, const V *first, const Function &function, const Life &life = {}) {
        sweep(key.index);
        for (uint32_t repeat = 0;; repeat++) {
            const Identity known = now(key);
            const Entry entry = look(known);
            if (entry.status != Status::ok && (entry.status != Status::absent || first == nullptr)) {
                return {entry.status, std::nullopt};
            }
            const Found<V> tried =
                entry.value ? renew(known, entry, function, life) : Found<V>{put_absent(key, *first).status, *first};
            if (tried.status == Status::ok) {
                return tried;
            }
            if (!is_lost(tried.status) || repeat >= this->tries()) {
                return {is_lost(tried.status) ? Status::changed : tried.status, std::nullopt};
            }
        }
    }

    // Returns what it removed. An entry that has expired is absent, but is removed all the same: an update that found it before must not renew it.
    Found<V> extract(const Identity &key) noexcept {
        Entry entry{};
        const auto find = [&] {
            entry = look(now(key));
            return Seen{entry.has_expired ? Status::ok : entry.status, entry.since};
        };
        const Status status = this->take_found(find, [&](uint64_t since) { return take_if(key.index, since); });
        return status == Status::ok ? Found<V>{entry.status, entry.value} : Found<V>{status, std::nullopt};
    }

    // Removes each key that is listed.
    Status clear() noexcept {
        this->flights.outdate_all();
        return each_listed([this](uint64_t index, const Words &) {
            return this->left(this->locked(index, [index](Slot<words> &slot) { return slot.remove(index); }));
        });
    }
    // Calls with the number and the words of each entry that has not expired.
    template <class See> Status for_each(const See &see) {
        return each_listed([&](uint64_t index, const Words &listed) {
            if (!Times::have_passed(ends_of(listed))) {
                see(index, listed);
            }
            return Status::ok;
        });
    }
    // Removes each entry that has not expired and of which `leaves` says so, by its number and its words.
    template <class Leaves> Erased erase_if(const Leaves &leaves) {
        const auto find = [&](uint64_t index) {
            const Answer<words> found = this->repeated([&](Slot<words> &slot) { return slot.handle.try_peek(index); });
            const bool stays = found.value && (Times::have_passed(ends_of(*found.value)) || !leaves(index, *found.value));
            return Seen{stays ? Status::absent : found.status, found.since};
        };
        return this->erase_each(find, [this](uint64_t index, uint64_t since) { return take_if(index, since); });
    }
    // Removes what has expired or is of an older generation. What stays doesn't count as used.
    Status erase_expired() noexcept {
        static_assert(Times::moments != 0, "a timed_map has this call");
        return each_listed([this](uint64_t index, const Words &listed) { return has_ended(listed) ? take_ended(index) : Status::ok; });
    }

    // Changes the bound on the number of entries, and evicts what is too much.
    Status set_capacity(uint64_t most) noexcept {
        return this->bound_keys(most, [this](uint64_t near) { return evict(near); });
    }

  private:
    Status evict(uint64_t near) noexcept {
        return this->left(this->call([near](Slot<words> &slot) { return slot.evict(near, by_capacity).status; }));
    }
    // In a full map. It is compiled apart: other puts are quicker then.
    [[gnu::noinline]] Stored put_bounded(const Identity &key, const V &value, const Ends &ends) noexcept {
        return told(this->locked(key.index, [this, &key, &ends, &value](Slot<words> &slot) {
            return slot.put_bounded(key.index, pack_in(generations.now(), key, ends, value));
        }));
    }
    // The answer of a put that may have failed once another entry had left for it.
    Stored told(const Stored &put) noexcept {
        put.evicted && put.status != Status::ok ? void(this->left(Status::ok)) : void();
        return put;
    }
    // The answer of a put, after which others are evicted if there are too many.
    [[gnu::always_inline]] Stored kept(uint64_t index, Stored put) noexcept {
        if (!put.renewed && !put.evicted && put.status == Status::ok) {
            put.evicted = this->keep_bound(index, [this](uint64_t near) { return evict(near); });
        }
        return put;
    }
    // The key as its entries of the present generation have it.
    Identity now(const Identity &key) const noexcept { return in_generation(key, generations.now()); }
    bool is_there(const Identity &known, const Words &packed) const noexcept {
        return packed[0] == known.check && !Times::have_passed(ends_of(packed));
    }
    // Not compiled into the callers, which are quicker then with a slot.
    [[gnu::cold]] [[gnu::noinline]] Status find_shared(Identity key, Words &packed) noexcept {
        const Status status = seek_by(nullptr, key, packed);
        this->count(nullptr, static_cast<Counted>(status));
        return status;
    }
    // Compiled into `find`. The generation is loaded after the entry, if there is one. An entry of that generation was found while it was the present
    // one. If it has another, all entries of that one have ended, and at that moment the key was absent.
    [[gnu::always_inline]] Status seek_by(Slot<words> *slot, const Identity &key, Words &packed) noexcept {
        const Seen seen = this->get(slot, key.index, this->looks(), packed);
        if (seen.status != Status::ok) {
            return seen.status;
        }
        const Identity known = now(key);
        if (!is_there(known, packed)) {
            return Status::absent;
        }
        if (Times::is_due(ends_of(packed))) {
            use(known, seen.since, packed);
        }
        return Status::ok;
    }
    // Begins the time to idle of an entry anew, unless another thread has the turn. If the entry was changed, looks it up again.
    [[gnu::cold]] [[gnu::noinline]] void use(const Identity &known, uint64_t since, Words packed) noexcept {
        for (uint32_t repeat = 0; repeat < this->looks() && Times::is_due(ends_of(packed)); repeat++) {
            set_ends(packed, Times::renewed(ends_of(packed), {}));
            const auto put = [&](Slot<words> &slot) { return slot.put_if(known.index, since, packed); };
            if (!is_lost(this->locked_once(known.index, put).status)) {
                return;
            }
            const Seen seen = this->get(this->own_slot(), known.index, this->looks(), packed);
            since = seen.since;
            if (seen.status != Status::ok || !is_there(known, packed)) {
                return;
            }
        }
    }
    // Whether the entry has expired or is of an older generation. That is read after the entry, so it is not older than that.
    bool has_ended(const Words &packed) const noexcept {
        return Times::have_passed(ends_of(packed)) || !Times::are_of(ends_of(packed), generations.now());
    }
    // Before a put. Removes what has ended at two places of the key's shard, so that no other entry gives way for it.
    void sweep([[maybe_unused]] uint64_t key) noexcept {
        if constexpr (Times::moments != 0) {
            this->each_placed(key, [this](uint64_t index, const Words &packed, uint64_t since) {
                if (has_ended(packed)) {
                    this->ended_by(this->locked_once(index, [index, since](Slot<words> &slot) { return slot.take_if(index, since); }));
                }
            });
        }
    }
    Status take_ended(uint64_t index) noexcept {
        Words packed;
        const Seen seen = this->get(this->own_slot(), index, this->tries(), packed);
        return seen.status == Status::ok && has_ended(packed) ? this->ended_by(take_if(index, seen.since)) : seen.status;
    }
    Words pack_in(uint64_t generation, const Identity &key, const Ends &ends, const V &value) const noexcept {
        return pack(in_generation(key, generation), Times::in_generation(ends, generation), value);
    }
    Stored put_absent(const Identity &key, const V &value, const Life &life = {}) noexcept {
        const Ends ends = Times::ends(life);
        for (;;) {
            const Stored put = put_new(key, value, ends, [this] { return generations.now(); });
            if (put.status != Status::stale) {
                return put;
            }
        }
    }
    // Puts if the key is absent, as an entry of the generation that `begun()` says at each try. stale: that has ended.
    template <class Begun> Stored put_new(const Identity &key, const V &value, const Ends &ends, const Begun &begun) noexcept {
        const auto make = [this, key, ends, begun, &value](Slot<words> &slot) {
            const uint64_t generation = begun();
            if (generation != generations.now()) {
                return refusal<Stored>(Status::stale);
            }
            const Words packed = pack_in(generation, key, ends, value);
            return this->is_full() ? slot.put_if_absent_bounded(key.index, packed) : slot.put_if_absent(key.index, packed);
        };
        for (uint32_t repeat = 0;; repeat++) {
            const Stored put = this->locked(key.index, make);
            if (put.status != Status::present) {
                return kept(key.index, told(put));
            }
            const uint64_t generation = begun();
            const Identity known = in_generation(key, generation);
            const Entry entry = look(known);
            if (entry.status == Status::ok && Times::is_due(entry.ends)) {
                use(known, entry.since, pack(known, entry.ends, *entry.value));
            }
            if (entry.status != Status::absent) {
                return {entry.status == Status::ok ? Status::present : entry.status, false, false};
            }
            if (generations.now() != generation) {
                return {Status::stale, false, false};
            }
            const Status status = entry.since != 0 ? put_over(known, entry.since, pack_in(generation, key, ends, value)) : Status::changed;
            if (!is_lost(status) || repeat >= this->tries()) {
                return {is_lost(status) ? Status::changed : status, false, status == Status::ok};
            }
        }
    }
    Status put_over(const Identity &key, uint64_t since, const Words &packed) noexcept {
        return this->locked(key.index, [index = key.index, since, &packed](Slot<words> &slot) { return slot.put_if(index, since, packed); }).status;
    }
    Status take_if(uint64_t index, uint64_t since) noexcept {
        return this->left(this->locked(index, [index, since](Slot<words> &slot) { return slot.take_if(index, since); }));
    }
    // Puts what the function makes of an entry's value, if the entry is still the same.
    template <class Function> Found<V> renew(const Identity &known, const Entry &entry, const Function &function, const Life &life) {
        const auto made = function(*entry.value);
        if constexpr (std::is_same_v<decltype(made), const V>) {
            return {put_over(known, entry.since, pack(known, Times::renewed(entry.ends, life), made)), made};
        } else {
            return made ? renew(known, entry, [&](const V &) { return *made; }, life) : Found<V>{Status::declined, std::nullopt};
        }
    }
};

} // namespace inside

} // namespace cefrodil

#endif
