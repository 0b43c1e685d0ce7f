// The hit rate of about the last minute, for counts.hpp: from sums of lookups that were noted now and then, so that a lookup counts nothing more.
#ifndef CEFRODIL_INSIDE_RECENT_HPP
#define CEFRODIL_INSIDE_RECENT_HPP

#include <algorithm>
#include <array>
#include <atomic>
#include <chrono>
#include <cstddef>
#include <cstdint>

namespace cefrodil::inside {

// Sums that one thread at a time notes. What is not noted for longer than a minute lies within the next rate as a whole.
class RecentLookups {
  public:
    using Time = std::chrono::steady_clock::time_point;

    // All sums are 0 then.
    explicit RecentLookups(Time begun) noexcept : last_(begun.time_since_epoch().count()) { notes_.fill({begun, 0, 0}); }

    // Whether the next sums would be noted. Any thread may ask. Relaxed: a guess.
    bool is_due(Time now) const noexcept { return now.time_since_epoch().count() - last_.load(std::memory_order_relaxed) >= Time::duration(pause).count(); }
    // The part of the lookups that found their key, since the sums that were noted last before a minute ago, or since the begin. Without any, 0. Notes
    // these sums, unless others were noted just before.
    double rate(Time now, uint64_t hits, uint64_t misses) noexcept {
        const auto is_old = [now](const Note &note) { return note.at <= now - minute; };
        const auto old = std::find_if(notes_.begin(), notes_.end(), is_old);
        const Note since = old != notes_.end() ? *old : notes_.back();
        if (is_due(now)) {
            std::copy_backward(notes_.begin(), notes_.end() - 1, notes_.end());
            notes_.front() = {now, hits, misses};
            last_.store(now.time_since_epoch().count(), std::memory_order_relaxed);
        }
        const uint64_t found = hits - since.hits, all = found + misses - since.misses;
        return all == 0 ? 0 : static_cast<double>(found) / static_cast<double>(all);
    }

  private:
    struct Note {
        Time at;
        uint64_t hits, misses;
    };
    // The oldest note is older than a minute when it goes.
    static constexpr std::chrono::seconds minute{60}, pause{4};

    std::atomic<Time::rep> last_;
    std::array<Note, minute / pause + 1> notes_{}; // the newest one first
};

} // namespace cefrodil::inside

#endif
