// What the calls by the handles of cefrodil.hpp came to, and the lookups of maps: counted by handle and added up. If a program defines CEFRODIL_COUNTS
// as 0, in all its files, nothing is counted.
#ifndef CEFRODIL_INSIDE_COUNTS_HPP
#define CEFRODIL_INSIDE_COUNTS_HPP

#include "../../cefrodil.h"
#include "forks.hpp"
#include "recent.hpp"
#include <algorithm>
#include <array>
#include <atomic>
#include <chrono>
#include <cstddef>
#include <cstdint>
#include <forward_list>
#include <memory>
#include <mutex>
#include <utility>
#include <vector>

#ifndef CEFRODIL_COUNTS
#define CEFRODIL_COUNTS 1
#endif

namespace cefrodil {

// How many calls by the handles of one cache came to what, since it was opened. A map counts its own lookups, as its `meter` says, and beside them what
// its calls of the index came to.
struct Counts {
    uint64_t hits = 0;      // lookups that found their key
    uint64_t misses = 0;    // lookups of a key that was absent
    uint64_t busy = 0;      // lookups that were busy; of a map: at each try
    uint64_t held = 0;      // writes, lists and peeks whose try for a turn did not win
    uint64_t evictions = 0; // puts that evicted another key, and keys that left because of a bound
    uint64_t refusals = 0;  // writes that were refused: no_path, all_recent or spent
    uint64_t given_up = 0;  // calls of a map that were held or busy at each try, for over a tenth of a second
    uint64_t stalled = 0;   // for how many seconds calls have given up so, if one did in the last ten: then a thread stopped within a write
    // Objects that have left an object_map and wait to be freed, and what they weigh by its weigher. While a function of `look` runs, none is freed.
    uint64_t waiting = 0, waiting_weight = 0;
    // Of a map, by its `counts`: its size, its capacity and, of an object_map, its weight.
    uint64_t entries = 0, capacity = 0, weight = 0;
    // Of the evictions of a map: those by its bound on weights, and by that on the number of keys.
    uint64_t evicted_by_weight = 0, evicted_by_capacity = 0;
    uint64_t ended = 0; // entries that left a map with puts or by erase_expired, because they had ended
    // How often functions of find_or_compute and pin_or_compute ran, how often they threw or declined, and how long they took together.
    uint64_t loads = 0, load_failures = 0;
    std::chrono::nanoseconds load_time{0};
    // As `hit_rate`, of the lookups since the counts noted last before a minute ago. They are noted when somebody asks for them, and by the functions that
    // are counted, by invalidate_all and by calls that list all entries, at most every four seconds. So if it is asked for every minute, it is of one to two minutes.
    double hit_rate_of_last_minute = 0;
    // Objects that an object_map has dropped and that pins keep, and what they weigh. One for which there was no memory to count it is not among them.
    uint64_t pinned = 0, pinned_weight = 0;

    // Which part of the lookups that were not busy found their key: 0 to 1. Without any, 0.
    double hit_rate() const noexcept { return hits == 0 ? 0 : static_cast<double>(hits) / static_cast<double>(hits + misses); }
};

namespace inside {

// The numbers of a line. The first three are statuses of a lookup.
enum Counted : size_t {
    hits = CEFRODIL_OK,
    misses = CEFRODIL_ABSENT,
    busy = CEFRODIL_BUSY,
    held,
    evictions,
    refusals,
    waiting,
    by_weight,
    by_capacity,
    by_end,
    loads,
    load_failures,
    load_nanoseconds,
    all_counted
};

// What a handle has counted. Only one thread at a time adds to a number alone, and any thread reads. The processor loads cache lines in pairs, so it has a
// pair of its own.
// A number says nothing of other memory, so its loads and stores are relaxed.
struct alignas(128) Line {
    std::array<std::atomic<uint64_t>, all_counted> numbers{};

    [[gnu::always_inline]] void add(size_t which, uint64_t more) noexcept {
        numbers[which].store(numbers[which].load(std::memory_order_relaxed) + more, std::memory_order_relaxed);
    }
    // Other threads may add to the number at the same time, by this.
    void add_shared(size_t which, uint64_t more) noexcept { numbers[which].fetch_add(more, std::memory_order_relaxed); }
};
static_assert(sizeof(Line) == 128, "a pair of cache lines");

// When calls gave up. A pause of ten seconds ends a stall: calls wait for three at most.
class Stalls {
  public:
    void give_up() noexcept {
        const int64_t now = seconds();
        if (now - last_.load(std::memory_order_relaxed) > pause) {
            first_.store(now, std::memory_order_relaxed);
        }
        // Release: who sees this time sees the first one of its stall, too.
        last_.store(now, std::memory_order_release);
        number_.fetch_add(1, std::memory_order_relaxed);
    }
    uint64_t number() const noexcept { return number_.load(std::memory_order_relaxed); }
    // For how many seconds. At the first call that gave up, 0.
    uint64_t length() const noexcept {
        const int64_t last = last_.load(std::memory_order_acquire), now = seconds();
        // Not below 0: another stall may begin after `now`.
        return now - last > pause ? 0 : static_cast<uint64_t>(std::max<int64_t>(now - first_.load(std::memory_order_relaxed), 0));
    }

  private:
    static constexpr int64_t pause = 10, never = -1000;
    static int64_t seconds() noexcept {
        return std::chrono::duration_cast<std::chrono::seconds>(std::chrono::steady_clock::now().time_since_epoch()).count();
    }
    std::atomic<int64_t> first_{never}, last_{never};
    std::atomic<uint64_t> number_{0};
};

// The lines of handles that are opened together: one vector.
using LineGroup = std::forward_list<std::vector<Line>>;

// The lines of a cache's handles, a group for each opening. The line of a handle that is closed keeps its numbers.
class Lines {
  public:
    void add(LineGroup &&group) noexcept {
        const std::lock_guard<std::mutex> guard(lock_);
        groups_.splice_after(groups_.cbefore_begin(), group);
    }
    // In a forked child nothing is known of the parent's handles.
    Counts sum() const noexcept {
        if (!maker_.is_this_process()) {
            return {};
        }
        std::array<uint64_t, all_counted> all{};
        const std::lock_guard<std::mutex> guard(lock_);
        for (const std::vector<Line> &group : groups_) {
            for (const Line &line : group) {
                for (size_t which = 0; which < all_counted; which++) {
                    all[which] += line.numbers[which].load(std::memory_order_relaxed);
                }
            }
        }
        Counts counts = counts_of(all);
        counts.given_up = stalls_.number(), counts.stalled = stalls_.length();
        counts.waiting_weight = waiting_weight_.load(std::memory_order_relaxed);
        counts.pinned = pinned_.load(std::memory_order_relaxed), counts.pinned_weight = pinned_weight_.load(std::memory_order_relaxed);
        counts.hit_rate_of_last_minute = recent_.rate(std::chrono::steady_clock::now(), counts.hits, counts.misses);
        return counts;
    }
    // Notes the sums of now for the hit rate of the last minute, if they are due. For calls that are rare anyway.
    void note(RecentLookups::Time now) const noexcept {
        if (recent_.is_due(now)) {
            static_cast<void>(sum());
        }
    }
    Stalls &stalls() noexcept { return stalls_; }
    // What the objects weigh that have left a map and wait to be freed. Relaxed: a number says nothing of other memory.
    std::atomic<uint64_t> &waiting_weight() noexcept { return waiting_weight_; }
    // Pins keep so many more objects of this weight. Relaxed: as above.
    void keep(uint64_t more, uint64_t weight) noexcept {
        pinned_.fetch_add(more, std::memory_order_relaxed);
        pinned_weight_.fetch_add(more * weight, std::memory_order_relaxed);
    }

  private:
    static Counts counts_of(const std::array<uint64_t, all_counted> &all) noexcept {
        Counts counts;
        counts.hits = all[hits], counts.misses = all[misses], counts.busy = all[busy], counts.held = all[held];
        counts.evictions = all[evictions], counts.refusals = all[refusals];
        // A thread frees what another one has retired, and the latter's line may have been read before that.
        counts.waiting = static_cast<uint64_t>(std::max<int64_t>(0, static_cast<int64_t>(all[waiting])));
        counts.evicted_by_weight = all[by_weight], counts.evicted_by_capacity = all[by_capacity], counts.ended = all[by_end];
        counts.loads = all[loads], counts.load_failures = all[load_failures];
        counts.load_time = std::chrono::nanoseconds(all[load_nanoseconds]);
        return counts;
    }

    mutable std::mutex lock_{};
    mutable RecentLookups recent_{std::chrono::steady_clock::now()}; // with the lock
    LineGroup groups_{};
    const Maker maker_{};
    Stalls stalls_{};
    std::atomic<uint64_t> waiting_weight_{0}, pinned_{0}, pinned_weight_{0};
};

// A handle's line. A handle that was opened by a call of C has none.
class Counter {
  public:
    Counter() noexcept = default;
    Counter(std::shared_ptr<Lines> lines, Line *line) noexcept : lines_(std::move(lines)), line_(line) {}
    const std::shared_ptr<Lines> &lines() const noexcept { return lines_; }

    void looked(cefrodil_status status) noexcept {
        if (lines_ && status <= CEFRODIL_BUSY) {
            line_->add(status, 1);
        }
    }
    void looked(const cefrodil_answer *answers, size_t count) noexcept {
        for (size_t i = 0; lines_ && i < count; i++) {
            line_->add(answers[i].status, 1);
        }
    }
    // For a map, which counts by itself: in the one thread that has the handle, or in one of those that share it. Its handles have lines, unless nothing
    // is counted.
    [[gnu::always_inline]] void add([[maybe_unused]] Counted what, [[maybe_unused]] uint64_t number) noexcept {
        if constexpr (CEFRODIL_COUNTS != 0) {
            line_->add(what, number);
        }
    }
    void add_shared([[maybe_unused]] Counted what, [[maybe_unused]] uint64_t number) noexcept {
        if constexpr (CEFRODIL_COUNTS != 0) {
            line_->add_shared(what, number);
        }
    }
    void tried(cefrodil_status status) noexcept {
        if (lines_ && status == CEFRODIL_HELD) {
            line_->add(held, 1);
        }
    }
    void wrote(cefrodil_status status, const cefrodil_reply &reply) noexcept {
        tried(status);
        if (lines_ && reply.put == CEFRODIL_PUT_EVICTED) {
            line_->add(evictions, 1);
        }
        if (lines_ && (status == CEFRODIL_NO_PATH || status == CEFRODIL_ALL_RECENT || status == CEFRODIL_SPENT)) {
            line_->add(refusals, 1);
        }
    }

  private:
    std::shared_ptr<Lines> lines_{}; // none: nothing is counted
    Line *line_ = nullptr;
};

// The lines of a cache that is to be opened.
inline std::shared_ptr<Lines> new_lines() {
    if constexpr (CEFRODIL_COUNTS != 0) {
        return std::make_shared<Lines>();
    } else {
        return nullptr;
    }
}

} // namespace inside

// Reads the counts of a cache, in any thread, at any time: also when its handles are closed. A copy reads the same.
class Meter {
  public:
    explicit Meter(std::shared_ptr<inside::Lines> lines) noexcept : lines_(std::move(lines)) {}
    // The counts of all handles. What other threads count meanwhile is in it or not.
    Counts counts() const noexcept { return lines_ ? lines_->sum() : Counts{}; }

  private:
    std::shared_ptr<inside::Lines> lines_;
};

} // namespace cefrodil

#endif
