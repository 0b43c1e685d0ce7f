// What the entries of both kinds of maps have in common, for table.hpp and objects.hpp: the calls of the index, the generation, and the flights.
#ifndef CEFRODIL_INSIDE_ENTRIES_HPP
#define CEFRODIL_INSIDE_ENTRIES_HPP

#include "cursors.hpp"
#include "flights.hpp"
#include "hash.hpp"
#include "key_locks.hpp"
#include "threads.hpp"
#include "turns.hpp"
#include <algorithm>
#include <array>
#include <chrono>
#include <cstddef>
#include <cstdint>
#include <exception>
#include <mutex>
#include <utility>
#include <vector>

namespace cefrodil {

// The answer of erase_if.
struct Erased {
    Status status;
    uint64_t count; // so many entries were removed
};

namespace inside {

// The generation of a map's entries. `invalidate_all` begins the next one. Each entry has the generation in which the call began that put it. An entry
// of an older generation is absent. map/SAFETY.md says why that suffices.
template <class Parts> class GenerationOf {
  public:
    // Acquire: a call that sees a generation sees what its `invalidate_all` came after.
    uint64_t now() const noexcept { return number_.load(std::memory_order_acquire); }
    void begin_next() noexcept { number_.fetch_add(1, std::memory_order_seq_cst); }

  private:
    typename Parts::template Atomic<uint64_t> number_{0};
};

using Generation = GenerationOf<Threads>;

// Whether the entry is another one than was looked up.
inline bool is_lost(Status status) noexcept {
    return status == Status::changed || status == Status::absent || status == Status::present;
}

// So many keys are looked up by one call of the index.
inline constexpr size_t few_keys = 32;

template <size_t Words, class Beside = NothingBeside> class Entries : public Turns<Words, Beside> {
  public:
    using typename Turns<Words, Beside>::OwnSlot;
    Generation generations{};
    AllFlights flights{};
    KeyLocks locks{};

    [[nodiscard]] Status open(uint32_t entries, uint32_t shards, uint32_t passes, uint32_t tries) noexcept {
        const Status status = Turns<Words, Beside>::open(entries, shards, passes, tries);
        return status == Status::ok && !has_memory([&] { locks.divide(entries); }) ? Status::no_memory : status;
    }

    // Only objects are weighed.
    static uint64_t weight() noexcept { return 0; }
    // Ends all entries, and outdates what is being computed.
    Status invalidate_all() noexcept {
        generations.begin_next();
        flights.outdate_all();
        note(std::chrono::steady_clock::now());
        return Status::ok;
    }
    // What the function returns. It is counted, with its time. It has failed if it throws or, where it may decline, returns none.
    template <bool Declines, class Function> auto loaded(Function &function) -> decltype(function()) {
        Load load(*this);
        if constexpr (Declines) {
            auto made = function();
            load.has_failed = !made;
            return made;
        } else {
            return function();
        }
    }

    // Takes by `take` what `find` finds, by the moment of its put, and finds again if others were first. Unless `find` is ok, its status is the answer.
    template <class Find, class Take> Status take_found(const Find &find, const Take &take) {
        for (uint32_t repeat = 0;; repeat++) {
            const Seen seen = find();
            const Status status = seen.status == Status::ok ? take(seen.since) : seen.status;
            if (status != Status::changed || repeat >= this->tries()) {
                return status;
            }
        }
    }

    // Makes a call as `repeated` does, with the key's lock.
    template <class Call> [[gnu::always_inline]] auto locked(uint64_t key, Call made) noexcept { return this->repeated(with_lock(key, made)); }
    // The same, but tries once.
    template <class Call> auto locked_once(uint64_t key, Call made) noexcept { return this->call(with_lock(key, made)); }

  protected:
    // Before the first put of a map whose entries end. False without memory.
    [[nodiscard]] bool open_cursors() noexcept {
        return has_memory([&] { cursors_.divide(this->shards(), this->places()); });
    }
    // Calls with what lies at the next two places of the key's shard, unless another thread has the turn: its number, its words and the moment of its put.
    template <class See> void each_placed(uint64_t key, const See &see) noexcept {
        const uint64_t first = cursors_.pass(key, 2);
        for (const uint64_t number : {first, first + 1}) {
            const uint32_t place = cursors_.place(number);
            const Shown<Words> shown = this->call([key, place](OwnSlot &slot) { return slot.handle.try_entry_at(key, place); });
            shown.value ? see(shown.key, *shown.value, shown.since) : void();
        }
    }
    // The status of the removal of an entry that had ended. It is counted.
    Status ended_by(Status taken) noexcept {
        this->count(this->own_slot(), by_end, taken == Status::ok ? 1 : 0);
        return this->left(taken);
    }
    // Looks a few keys up.
    void get_few(const Identity *keys, size_t count, std::array<uint64_t, Words> *found, cefrodil_answer *answers) noexcept {
        std::array<uint64_t, few_keys> indices;
        std::transform(keys, keys + count, indices.begin(), [](const Identity &key) { return key.index; });
        this->call([&](OwnSlot &slot) {
            // It is ok: an open handle has an answer for each key.
            [[maybe_unused]] const cefrodil_status status =
                cefrodil_get_many_or_none(slot.handle.raw(), indices.data(), count, found->data(), Words * count, answers, count);
        });
    }
    // Calls with the number and the words of each entry of a list of all, until a call fails. Each shard is listed at a moment of its own. Of some
    // entries others may be first.
    template <class Call> Status each_listed(Call call) {
        std::vector<uint64_t> list;
        note(std::chrono::steady_clock::now());
        Status status = this->repeated([&](OwnSlot &slot) { return slot.handle.try_entries(list); });
        for (size_t at = 0; at < list.size() && status == Status::ok; at += 1 + Words) {
            std::array<uint64_t, Words> listed;
            std::copy_n(&list[at + 1], Words, listed.begin());
            status = call(list[at], listed);
            status = is_lost(status) ? Status::ok : status;
        }
        return status;
    }
    // Under each number that is listed, removes by `take` what `find` finds. Outdates what is being computed.
    template <class Find, class Take> Erased erase_each(Find find, Take take) {
        flights.outdate_all();
        Erased erased{Status::ok, 0};
        erased.status = each_listed([&](uint64_t index, const auto &) {
            const Status status = take_found([&] { return find(index); }, [&](uint64_t since) { return take(index, since); });
            erased.count += status == Status::ok ? 1 : 0;
            return status == Status::changed ? Status::held : status;
        });
        return erased;
    }

  private:
    using Time = std::chrono::steady_clock::time_point;

    template <class Call> [[gnu::always_inline]] auto with_lock(uint64_t key, Call made) noexcept {
        return [this, key, made](OwnSlot &slot) __attribute__((always_inline)) {
            const std::unique_lock<KeyLock> guard(locks.of(key), std::try_to_lock);
            return guard ? made(slot) : refusal<decltype(made(slot))>(Status::held);
        };
    }

    // One run of a function that computes a value.
    struct Load {
        explicit Load(Entries &those) noexcept : entries(those) {}
        Load(const Load &) = delete;
        Load &operator=(const Load &) = delete;
        ~Load() {
            const Time now = std::chrono::steady_clock::now();
            OwnSlot *const slot = entries.own_slot();
            entries.count(slot, loads);
            entries.count(slot, load_failures, has_failed || std::uncaught_exceptions() > exceptions ? 1 : 0);
            entries.count(slot, load_nanoseconds, static_cast<uint64_t>(std::chrono::nanoseconds(now - begun).count()));
            entries.note(now);
        }

        Entries &entries;
        bool has_failed = false;
        const int exceptions = std::uncaught_exceptions();
        const Time begun = std::chrono::steady_clock::now();
    };
    // For the hit rate of the last minute.
    void note(Time now) noexcept {
        if (this->lines()) {
            this->lines()->note(now);
        }
    }

    Cursors cursors_{};
};

// What an open map owns.
template <class K, class Hash, class All> struct Opened {
    template <class... Made> explicit Opened(Hash &&hash, Made &&...made) : identities(std::move(hash)), entries(std::forward<Made>(made)...) {}

    Identities<Taken<K, Hash>, Hash> identities;
    All entries;
};

} // namespace inside

} // namespace cefrodil

#endif
