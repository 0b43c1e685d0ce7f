// Handles of the index that threads take by themselves (passes), for cefrodil_map.hpp. A thread takes one at its first call, and gives it back at its
// end. It is opened for the first thread that takes it. A thread that finds none shares one with others, behind a lock. turns.hpp repeats calls by them.
#ifndef CEFRODIL_INSIDE_PASSES_HPP
#define CEFRODIL_INSIDE_PASSES_HPP

#include "forks.hpp"
#include "slot.hpp"
#include "threads.hpp"
#include <algorithm>
#include <array>
#include <atomic>
#include <memory>
#include <mutex>
#include <numeric>
#include <optional>
#include <unordered_map>
#include <utility>
#include <vector>

namespace cefrodil::inside {

// Which passes no thread has. Pass 0 is the shared one, which no thread takes. A thread that has a pass keeps this, but not the passes: they may
// end before the thread does.
template <class Parts> class FreePassesOf {
  public:
    explicit FreePassesOf(size_t count) : free_(count - 1), count_(count - 1) { std::iota(free_.rbegin(), free_.rend(), size_t(1)); }

    // A pass for this thread, or 0. What threads do with it one after the other is ordered by the lock. So the count needs no order: outside of the
    // lock it only says whether to try.
    size_t take() noexcept {
        if (count() == 0) {
            return 0;
        }
        const std::lock_guard<typename Parts::Mutex> guard(lock_);
        const size_t left = count();
        if (left == 0) {
            return 0;
        }
        count_.store(left - 1, std::memory_order_relaxed);
        return free_[left - 1];
    }
    // In a forked child the lock may be held for ever.
    void give(size_t pass) noexcept {
        if (!maker_.is_this_process()) {
            return;
        }
        const std::lock_guard<typename Parts::Mutex> guard(lock_);
        const size_t left = count();
        free_[left] = pass;
        count_.store(left + 1, std::memory_order_relaxed);
    }
    size_t count() const noexcept { return count_.load(std::memory_order_relaxed); }

    // The passes have ended. Relaxed: who sees it forgets its claim, and touches nothing of theirs.
    void end() noexcept { ended_.store(true, std::memory_order_relaxed); }
    bool have_ended() const noexcept { return ended_.load(std::memory_order_relaxed); }

  private:
    typename Parts::Mutex lock_{};
    std::vector<size_t> free_;
    typename Parts::template Atomic<size_t> count_;
    typename Parts::template Atomic<bool> ended_{false};
    const Maker maker_{};
};

using FreePasses = FreePassesOf<Threads>;

// The slots that a thread used lately: the last one, and each at the place of its passes. The thread has a claim to these, so no others have their address. It has no
// destructor, so it is there until the thread's very end.
//
// Each shared library that hides its symbols has its own copy of this and of the claims, and a thread has a pass by each copy. Numbers that each
// copy counts for itself would not tell the passes apart. Addresses do.
struct RecentSlots {
    struct Place {
        const FreePasses *passes = nullptr;
        void *slot = nullptr;
    };
    Place last{}; // By this a program with one map is quickest.
    std::array<Place, 256> places{};
    bool has_ended = false;
};

inline RecentSlots &recent_slots() noexcept {
    static thread_local RecentSlots recent;
    return recent;
}

// Passes that are opened one after the other have different places, up to so many.
inline uint8_t next_place() noexcept {
    static std::atomic<uint8_t> next{0};
    return next.fetch_add(1, std::memory_order_relaxed);
}

// The passes that a thread has.
class Claims {
  public:
    // After the destructor has run, the thread may still call: from the destructors of its other objects. Then there are no claims.
    static Claims *of_thread() noexcept {
        if (recent_slots().has_ended) {
            return nullptr;
        }
        static thread_local Claims claims;
        return &claims;
    }

    // The pass of these that the thread has, or takes now, or 0.
    size_t pass_of(const std::shared_ptr<FreePasses> &passes) noexcept {
        if (const auto claim = claims_.find(passes); claim != claims_.end()) {
            return claim->second;
        }
        const size_t pass = passes->take();
        if (pass != 0 && !has_memory([&] { add(passes, pass); })) {
            passes->give(pass);
            return 0;
        }
        return pass;
    }

  private:
    Claims() noexcept {}
    ~Claims() {
        recent_slots() = {{}, {}, true};
        for (const auto &[passes, pass] : claims_) {
            passes->give(pass);
        }
    }
    Claims(const Claims &) = delete;
    Claims &operator=(const Claims &) = delete;

    // Claims to passes that have ended make room.
    void add(const std::shared_ptr<FreePasses> &passes, size_t pass) {
        recent_slots() = {};
        for (auto claim = claims_.begin(); claim != claims_.end();) {
            claim = claim->first->have_ended() ? claims_.erase(claim) : std::next(claim);
        }
        claims_.emplace(passes, pass);
    }

    std::unordered_map<std::shared_ptr<FreePasses>, size_t> claims_{};
};

// The passes of an index. All but opening and ending may be called by any thread.
template <size_t Words, class Beside = NothingBeside> class Passes {
  public:
    using OwnSlot = Slot<Words, Beside>;

    Passes() noexcept {}
    Passes(const Passes &) = delete;
    Passes &operator=(const Passes &) = delete;
    ~Passes() {
        if (free_) {
            free_->end();
        }
        std::for_each(slots_.begin(), slots_.end(), [](const std::atomic<OwnSlot *> &slot) { delete slot.load(std::memory_order_relaxed); });
    }

    // Statuses are those of cefrodil::open. Unless ok, nothing is open. The handles that the index can't open later are opened now.
    [[nodiscard]] Status open(const cefrodil_shape &shape, uint32_t shards, size_t asked) noexcept {
        std::vector<Handle<Words>> handles;
        const size_t count = allowed(asked), later = std::min(count - std::min<size_t>(count, 1), spare_handles);
        const Status status = cefrodil::open(shape, shards, count - later, handles);
        if (status != Status::ok) {
            return status;
        }
        const auto grow = [&] {
            slots_ = std::vector<std::atomic<OwnSlot *>>(count);
            free_ = std::make_shared<FreePasses>(count);
            for (size_t pass = 1; pass < handles.size(); pass++) {
                add_slot(pass, std::move(handles[pass]));
            }
        };
        shared_slot_.handle = std::move(handles[0]);
        beside_.join(shared_slot_.beside);
        return has_memory(grow) ? Status::ok : Status::no_memory;
    }

    // The slot of this thread. Null: it uses the shared one.
    OwnSlot *own_slot() noexcept {
        const RecentSlots::Place &last = recent_slots().last;
        if (__builtin_expect(last.passes != free_.get(), false)) {
            return find_slot();
        }
        if (last.slot == nullptr) {
            __builtin_unreachable(); // These passes have a slot there.
        }
        return static_cast<OwnSlot *>(last.slot);
    }
    // Makes one call with the slot of this thread, or with the shared one. The call must run no code of the user, since that might call, too.
    template <class Call> auto call(Call made) noexcept { return call_by(own_slot(), made); }
    // The same with this slot, which `own_slot` returned.
    template <class Call> auto call_by(OwnSlot *slot, Call made) noexcept { return slot != nullptr ? made(*slot) : call_shared(made); }
    // Counts by such a slot. No call of the index counts this, too: with the lock, which this doesn't take.
    [[gnu::always_inline]] void count(OwnSlot *slot, Counted what, uint64_t number = 1) noexcept {
        slot != nullptr ? slot->count(what, number) : Counting::counter(shared_slot_.handle).add_shared(what, number);
    }
    // Counts what calls of the index count, too.
    void count_beside_calls(OwnSlot *slot, Counted what) noexcept {
        if (slot != nullptr) {
            slot->count(what, 1);
            return;
        }
        const std::lock_guard<std::mutex> guard(sharing_);
        shared_slot_.count(what, 1);
    }

    // How many keys all calls added, less those that they removed. Calls that run meanwhile count or not.
    uint64_t keys() const noexcept {
        int64_t sum = shared_slot_.keys.load(std::memory_order_relaxed);
        const size_t last = last_made_.load(std::memory_order_relaxed);
        for (size_t pass = 1; pass <= last; pass++) {
            const OwnSlot *const own = slots_[pass].load(std::memory_order_acquire);
            sum += own != nullptr ? own->keys.load(std::memory_order_relaxed) : 0;
        }
        return static_cast<uint64_t>(std::max<int64_t>(0, sum));
    }
    size_t free_count() const noexcept { return free_->count(); }
    // How many calls the shared pass made.
    uint64_t shared_calls() const noexcept { return shared_calls_.load(std::memory_order_relaxed); }
    const Handle<Words> &shared() const noexcept { return shared_slot_.handle; }
    Meter meter() const noexcept { return shared().meter(); }
    // What the meter reads. Null: nothing is counted.
    const std::shared_ptr<Lines> &lines() const noexcept { return Counting::lines(shared()); }

  protected:
    Beside &beside() noexcept { return beside_; }
    // What such a slot has beside its handle.
    typename Beside::Place &place_of(OwnSlot *slot) noexcept { return slot != nullptr ? slot->beside : shared_slot_.beside; }

  private:
    // So many handles of an index can be opened later (cefrodil_more).
    static constexpr size_t spare_handles = 64;

    template <class Call> [[gnu::cold]] [[gnu::noinline]] auto call_shared(Call made) noexcept {
        const std::lock_guard<std::mutex> guard(sharing_);
        // Relaxed: a number says nothing of other memory.
        shared_calls_.fetch_add(1, std::memory_order_relaxed);
        return made(shared_slot_);
    }
    [[gnu::noinline]] OwnSlot *find_slot() noexcept {
        RecentSlots &recent = recent_slots();
        const RecentSlots::Place &place = recent.places[place_];
        if (place.passes != free_.get()) {
            return claim_slot();
        }
        if (place.slot != nullptr) {
            recent.last = place;
        }
        return static_cast<OwnSlot *>(place.slot);
    }
    // A thread whose pass can't be opened uses the shared one, and doesn't try again.
    [[gnu::cold]] [[gnu::noinline]] OwnSlot *claim_slot() noexcept {
        Claims *const claims = Claims::of_thread();
        const size_t pass = claims != nullptr ? claims->pass_of(free_) : 0;
        if (pass == 0) {
            return nullptr;
        }
        OwnSlot *const slot = slot_of(pass);
        recent_slots().places[place_] = {free_.get(), slot};
        return slot;
    }
    // The slot of a pass that this thread has taken. It is made if no thread had the pass before. Null without memory.
    OwnSlot *slot_of(size_t pass) noexcept {
        // The thread that made it has given the pass back, and the lock of that orders what it did.
        if (OwnSlot *const slot = slots_[pass].load(std::memory_order_relaxed)) {
            return slot;
        }
        std::vector<Handle<Words>> opened;
        const std::lock_guard<std::mutex> guard(sharing_);
        const bool is_open = shared_slot_.handle.more(1, opened) == Status::ok && has_memory([&] { add_slot(pass, std::move(opened[0])); });
        return is_open ? slots_[pass].load(std::memory_order_relaxed) : nullptr;
    }
    void add_slot(size_t pass, Handle<Words> &&handle) {
        auto slot = std::make_unique<OwnSlot>();
        slot->handle = std::move(handle);
        beside_.join(slot->beside);
        // Release: who counts its keys finds it made.
        slots_[pass].store(slot.release(), std::memory_order_release);
        last_made_.store(std::max(pass, last_made_.load(std::memory_order_relaxed)), std::memory_order_relaxed);
    }

    OwnSlot shared_slot_{};
    // Those of the passes that threads have had, from 1 on, and the last one of these. That is stored with the lock, and read without.
    std::vector<std::atomic<OwnSlot *>> slots_{};
    std::atomic<size_t> last_made_{0};
    std::shared_ptr<FreePasses> free_{};
    const uint8_t place_ = next_place();
    std::mutex sharing_{};
    std::atomic<uint64_t> shared_calls_{0};
    Beside beside_{};
};

} // namespace cefrodil::inside

#endif
