// How long the entries of a map live, for cefrodil_object_map.hpp and cefrodil_map.hpp.
#ifndef CEFRODIL_INSIDE_LIVES_HPP
#define CEFRODIL_INSIDE_LIVES_HPP

#include <algorithm>
#include <array>
#include <chrono>
#include <cstddef>
#include <cstdint>
#include <functional>
#include <limits>
#include <optional>

namespace cefrodil {

// A time to live that never ends.
inline constexpr std::chrono::nanoseconds forever = std::chrono::nanoseconds::max();

// How long entries live. A time of 0 or less is over at once.
struct Lives {
    // After its put, unless the put says another time.
    std::chrono::nanoseconds time_to_live = forever;
    // After it was put or found last.
    std::chrono::nanoseconds time_to_idle = forever;
    // What time it is, 0 or more, and never less than before. Several threads call it at once. It throws nothing, and does not call the map. None: the
    // clock is std::chrono::steady_clock. On Linux that stops while the machine is suspended, so an entry then lives longer by that time.
    std::function<std::chrono::nanoseconds()> clock = nullptr;
};

namespace inside {

// A deadline in nanoseconds of the clock. What never ends has this one.
inline constexpr uint64_t never = std::numeric_limits<uint64_t>::max();

class Clock {
  public:
    explicit Clock(const Lives &lives) : lives_(lives) {}
    bool has_lives() const noexcept { return lives_.time_to_live != forever || has_idle(); }
    bool has_idle() const noexcept { return lives_.time_to_idle != forever; }
    // Without a time to idle it says nothing.
    uint64_t idle_time() const noexcept { return span(lives_.time_to_idle); }
    // That of what is put now, with a time to live of its own or that of the map.
    uint64_t deadline(const std::optional<std::chrono::nanoseconds> &life) const noexcept { return deadline_after(life.value_or(lives_.time_to_live)); }
    uint64_t idle_deadline() const noexcept { return deadline_after(lives_.time_to_idle); }
    // The deadline of what lives for so long from now on.
    uint64_t deadline_after(std::chrono::nanoseconds life) const noexcept {
        return life == forever ? never : now() + span(life);
    }
    // Whether the time to idle that ends then is to begin anew: if a sixteenth of it has passed. So calls that find an entry seldom write.
    bool is_due(uint64_t idle) const noexcept { return has_idle() && idle < idle_deadline() - idle_time() / 16; }
    // Each time is less than 2^63, so a later deadline is never reached.
    bool has_passed(uint64_t deadline) const noexcept { return deadline < uint64_t(1) << 63 && now() >= deadline; }

  private:
    static uint64_t span(std::chrono::nanoseconds life) noexcept { return static_cast<uint64_t>(std::max(life, std::chrono::nanoseconds(0)).count()); }
    // Both a time and a life are less than 2^63, so no sum of them is too large.
    uint64_t now() const noexcept {
        return static_cast<uint64_t>((lives_.clock ? lives_.clock() : std::chrono::steady_clock::now().time_since_epoch()).count());
    }
    const Lives lives_;
};

// When the entries of a map end: never.
struct Timeless {
    // How many words an entry has for this.
    static constexpr size_t moments = 0;
    struct Life {};
    using Ends = std::array<uint64_t, 0>;

    static Ends ends(Life) noexcept { return {}; }
    static Ends in_generation(const Ends &, uint64_t) noexcept { return {}; }
    static Ends renewed(const Ends &, Life) noexcept { return {}; }
    static bool have_passed(const Ends &) noexcept { return false; }
    static bool is_due(const Ends &) noexcept { return false; }
};

// When those of a timed_map end.
class Timed {
  public:
    static constexpr size_t moments = 2;
    // A time to live that a call says, or none.
    using Life = std::optional<std::chrono::nanoseconds>;
    // When an entry ends, and when it does if no call finds it. The latter is a little sooner than it is to be, so that its last bits are those of the
    // entry's generation.
    using Ends = std::array<uint64_t, moments>;

    Timed() : Timed(Lives()) {}
    explicit Timed(const Lives &lives) : clock_(lives), last_bits_(last_bits_for(clock_)) {}

    Ends ends(const Life &life) const noexcept { return {clock_.deadline(life), clock_.idle_deadline()}; }
    // The same with the last bits of the generation: the last moment up to that deadline that has them.
    Ends in_generation(const Ends &ends, uint64_t generation) const noexcept { return {ends[0], ends[1] - ((ends[1] - generation) & last_bits_)}; }
    // Those of what replaces an entry with such ends, in its generation.
    Ends renewed(const Ends &old, const Life &life) const noexcept {
        return in_generation({life ? clock_.deadline(life) : old[0], clock_.idle_deadline()}, old[1]);
    }
    bool have_passed(const Ends &ends) const noexcept { return clock_.has_passed(std::min(ends[0], ends[1])); }
    // Whether they are those of an entry of this generation. Generations are told apart by their last bits: 2^32 in a row or, with a time to idle, at
    // least one for each 512 ns of it.
    bool are_of(const Ends &ends, uint64_t generation) const noexcept { return ((ends[1] ^ generation) & last_bits_) == 0; }
    // Whether the time to idle is to begin anew in the entry.
    bool is_due(const Ends &ends) const noexcept { return clock_.is_due(ends[1]); }

  private:
    // They take less than 1/256 of the time to idle, or, without one, 32 bits of a deadline that is never reached.
    static uint64_t last_bits_for(const Clock &clock) noexcept {
        const uint64_t most = clock.has_idle() ? clock.idle_time() / 256 : uint64_t(1) << 32;
        uint64_t count = 1;
        while (count <= most / 2) {
            count *= 2;
        }
        return count - 1;
    }

    Clock clock_;
    uint64_t last_bits_;
};

} // namespace inside

} // namespace cefrodil

#endif
