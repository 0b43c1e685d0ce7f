// Statuses, answers, and how handles are opened, moved and closed, for cefrodil.hpp.
#ifndef CEFRODIL_INSIDE_HANDLE_HPP
#define CEFRODIL_INSIDE_HANDLE_HPP

#include "../../cefrodil.h"
#include "counts.hpp"
#include "prometheus.hpp"
#include <array>
#include <cstddef>
#include <cstdint>
#include <cstdio>
#include <memory>
#include <new>
#include <optional>
#include <utility>
#include <vector>

namespace cefrodil {

// The statuses of cefrodil.h, and those of the maps. A compiler warns if nobody looks at the status of a call, except that of `close`. `Status::ok` is
// 0, so compare a status, and never take it for a bool.
enum class Status : uint32_t {
    // .ci/calls: statuses
    ok = CEFRODIL_OK,
    absent = CEFRODIL_ABSENT,
    busy = CEFRODIL_BUSY,
    no_path = CEFRODIL_NO_PATH,
    all_recent = CEFRODIL_ALL_RECENT,
    spent = CEFRODIL_SPENT,
    changed = CEFRODIL_CHANGED,
    held = CEFRODIL_HELD,
    closed = CEFRODIL_CLOSED,
    holds = CEFRODIL_HOLDS,
    width = CEFRODIL_WIDTH,
    in_use = CEFRODIL_IN_USE,
    no_memory = CEFRODIL_NO_MEMORY,
    bad_words = CEFRODIL_BAD_WORDS,
    bad_mix = CEFRODIL_BAD_MIX,
    bad_buckets = CEFRODIL_BAD_BUCKETS,
    bad_items = CEFRODIL_BAD_ITEMS,
    bad_stripes = CEFRODIL_BAD_STRIPES,
    bad_depth = CEFRODIL_BAD_DEPTH,
    bad_tries = CEFRODIL_BAD_TRIES,
    bad_limit = CEFRODIL_BAD_LIMIT,
    bad_handles = CEFRODIL_BAD_HANDLES,
    bad_count = CEFRODIL_BAD_COUNT,
    no_item = CEFRODIL_NO_ITEM,
    bad_shards = CEFRODIL_BAD_SHARDS,
    present = CEFRODIL_PRESENT,
    holds_not = CEFRODIL_HOLDS_NOT,
    processor = CEFRODIL_PROCESSOR,
    bad_policy = CEFRODIL_BAD_POLICY,
    // .ci/calls: end
    // The program is linked with an archive of another version, whose structs and calls may differ. Nothing was done.
    other_version = 1000,
    // By Filler::fill (cefrodil_filler.hpp): the store may have changed since the value was read. Nothing was put. By
    // find_or_compute and pin_or_compute of the maps: the key was changed while its value was computed, or the call could not wait for another one.
    stale = 1001,
    // By `open` of the maps: the kernel gave no random numbers. Nothing is open.
    no_random = 1002,
    // By the puts of an object_map with a bound on weights: the entry alone weighs more. Nothing was put, and an earlier value stays.
    too_heavy = 1003,
    // By calls of the maps with a function that may make no value: it made none, and an earlier one stays.
    declined = 1004,
    // By the writes of an object_map that its listener makes, within 16 listeners of the thread: nothing was done.
    too_deep = 1005,
    // By a map whose capacity is to change: there is no room for so many entries, or it would be none. Nothing was done.
    bad_capacity = 1006
};

namespace inside {

// Before version 1.0 another minor version may differ in its calls, so the patch alone may be another.
inline bool same_version() noexcept { return cefrodil_version() / 100 == CEFRODIL_VERSION / 100; }

// Both versions. They stay in one place, as other texts do.
inline const char *versions() noexcept {
    static const std::array<char, 100> both = [] {
        std::array<char, 100> text{};
        const unsigned library = cefrodil_version();
        std::snprintf(text.data(), text.size(), "the library has version %u.%u.%u, and the header %u.%u.%u", library / 10000, library / 100 % 100,
                      library % 100, unsigned(CEFRODIL_VERSION_MAJOR), unsigned(CEFRODIL_VERSION_MINOR), unsigned(CEFRODIL_VERSION_PATCH));
        return text;
    }();
    return both.data();
}

// Whether there was memory for what `grow` takes. In a program without exceptions it ends the program if there was not.
template <class Grow> [[nodiscard]] bool has_memory(Grow grow) noexcept {
#ifdef __cpp_exceptions
    try {
        grow();
    } catch (const std::bad_alloc &) {
        return false;
    }
#else
    grow();
#endif
    return true;
}

} // namespace inside

inline const char *text(Status status) noexcept {
    switch (status) {
    case Status::other_version: return inside::versions();
    case Status::stale: return "the store may have changed since the value was read";
    case Status::no_random: return "the kernel gave no random numbers";
    case Status::too_heavy: return "the entry weighs more than the map may hold";
    case Status::declined: return "the function made no new value";
    case Status::too_deep: return "too many listeners within each other";
    case Status::bad_capacity: return "a capacity must be from 1 to the room that the map was opened with";
    default: return cefrodil_text(static_cast<uint32_t>(status));
    }
}

// The answer of a lookup. `value` is there if the key was found.
template <size_t Words> struct Answer {
    Status status;
    std::optional<std::array<uint64_t, Words>> value;
    uint64_t at;
    uint64_t since;
};

// The answer of a write. `evicted` is there if another key was evicted. After a put, `at` is the key's token for the next `put_if`. `since` is
// set by the statuses `changed` and `present`.
struct Written {
    Status status;
    std::optional<uint64_t> evicted;
    uint64_t at;
    uint64_t since;
    bool renewed;
};

// The answer of a write that also returns the entry which gives way. `old` is there if one did: its value. `old_since` is the `at` of its last
// put, and its key is `evicted` if that is there, or else the key that was written.
template <size_t Words> struct Swapped {
    Status status;
    std::optional<uint64_t> evicted;
    std::optional<std::array<uint64_t, Words>> old;
    uint64_t at;
    uint64_t old_since;
    uint64_t since; // set by the status `changed`
};

// What lies at a place of the table. `value` is there if an entry does: that of `key`, whose last put was at `since`.
template <size_t Words> struct Shown {
    Status status;
    uint64_t key;
    std::optional<std::array<uint64_t, Words>> value;
    uint64_t since;
};

namespace inside {

inline Status status_of(Status status) noexcept { return status; }
template <class Told> Status status_of(const Told &told) noexcept { return told.status; }

struct Counting;

// A handle of C that moves, and closes itself.
class OpenHandle {
  public:
    bool is_open() const noexcept { return raw_.live_; }
    // Closes the handle now. Closing the last handle frees the cache. Until then, the others stay open.
    Status close() noexcept {
        counter_ = Counter();
        return static_cast<Status>(cefrodil_close_unless_null(&raw_));
    }
    // The handle for calls of cefrodil.h. These calls are not counted.
    cefrodil_handle *raw() noexcept { return &raw_; }
    // Reads what the calls by all handles of this cache came to. Take it before the handle is closed.
    Meter meter() const noexcept { return Meter(counter_.lines()); }

  protected:
    friend struct Counting;
    OpenHandle() noexcept {}
    OpenHandle(OpenHandle &&other) noexcept : raw_(std::exchange(other.raw_, cefrodil_handle{})), counter_(std::move(other.counter_)) {}
    OpenHandle &operator=(OpenHandle &&other) noexcept {
        if (this != &other) {
            cefrodil_close_unless_null(&raw_);
            raw_ = std::exchange(other.raw_, cefrodil_handle{});
            counter_ = std::move(other.counter_);
        }
        return *this;
    }
    OpenHandle(const OpenHandle &) = delete;
    OpenHandle &operator=(const OpenHandle &) = delete;
    ~OpenHandle() { cefrodil_close_unless_null(&raw_); }

    Counter &counter() noexcept { return counter_; }

  private:
    cefrodil_handle raw_ = CEFRODIL_EMPTY;
    Counter counter_{};
};

// What this header's own functions do with any handle.
struct Counting {
    static const std::shared_ptr<Lines> &lines(const OpenHandle &handle) noexcept { return handle.counter_.lines(); }
    static void open(OpenHandle &handle, const cefrodil_handle &raw, Counter &&counter) noexcept {
        handle.raw_ = raw;
        handle.counter_ = std::move(counter);
    }
    static void move(OpenHandle &from, OpenHandle &to) noexcept { to = std::move(from); }
    static Status tried(OpenHandle &handle, cefrodil_status status) noexcept {
        handle.counter_.tried(status);
        return static_cast<Status>(status);
    }
    static Counter &counter(OpenHandle &handle) noexcept { return handle.counter_; }
};

// A number of handles that the archive may allow; it refuses 0 for the same reason as a larger one.
inline size_t allowed(size_t count) noexcept { return count <= 1024 ? count : 0; }

// Opens `count` handles by a call of C, which takes an array of them. If it succeeds, they take the place of `handles`. All memory is taken
// before the call: what `grow` takes, too. It returns the lines of the cache. An archive of another version is not called.
template <class Each, class Grow, class Open>
[[nodiscard]] Status open_all(std::vector<Each> &handles, size_t count, Grow grow, Open open) noexcept {
    if (!same_version()) {
        return Status::other_version;
    }
    std::vector<cefrodil_handle> raw;
    std::vector<Each> opened;
    std::shared_ptr<Lines> lines;
    LineGroup group;
    const auto take_all = [&] {
        raw.resize(count != 0 ? count : 1);
        opened.resize(count);
        lines = grow();
        group.emplace_front(lines ? count : 0);
    };
    if (!has_memory(take_all)) {
        return Status::no_memory;
    }
    const auto status = static_cast<Status>(open(raw.data(), count));
    if (status == Status::ok) {
        for (size_t i = 0; i < count; i++) {
            Counting::open(opened[i], raw[i], Counter(lines, lines ? &group.front()[i] : nullptr));
        }
        if (lines) {
            lines->add(std::move(group));
        }
        handles = std::move(opened);
    }
    return status;
}

} // namespace inside

} // namespace cefrodil

#endif
