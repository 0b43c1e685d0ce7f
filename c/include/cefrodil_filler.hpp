// A guard against stale fills, over cefrodil.hpp, for a cache beside a store. A thread that misses a key reads the store and has the value put.
// If another thread changes the store and removes the key in between, a plain put brings the old value back. A Filler refuses that put.
#ifndef CEFRODIL_FILLER_HPP
#define CEFRODIL_FILLER_HPP

#include "cefrodil.hpp"
#include <atomic>
#include <memory>
#include <utility>
#include <vector>

namespace cefrodil {

// How many changes of the store a Filler knew when it was taken.
enum class Ticket : uint64_t {};

// Gives tickets to the threads that read the store. A copy gives the same.
class Tickets {
  public:
    explicit Tickets(std::shared_ptr<const std::atomic<uint64_t>> changes) noexcept : changes_(std::move(changes)) {}
    // Take one before you read the store, and send it to the Filler with the value that you read. Acquire: your read comes after it, so it sees each
    // change of the store that the ticket knows.
    Ticket take() const noexcept { return Ticket(changes_->load(std::memory_order_acquire)); }

  private:
    std::shared_ptr<const std::atomic<uint64_t>> changes_;
};

// Writes a cache, and knows the last changes of the store, each by its key. It belongs to one thread at a time.
template <size_t Words> class Filler {
  public:
    using Value = std::array<uint64_t, Words>;

    // `changes`: how many it knows, at least one. A fill is refused if more have come since its ticket, so take what may come while a thread
    // reads the store, and some more.
    // `writing`: one that owns its handle (Writing::own), so that all may be moved. It may throw std::bad_alloc, or std::length_error for too many
    // changes, and then `writing` is as it was. A filler that was moved from must not be called.
    Filler(Writing<Words> &&writing, size_t changes)
        : count_(std::make_shared<std::atomic<uint64_t>>(0)), keys_(changes != 0 ? changes : 1), writing_(std::move(writing)) {}

    Tickets tickets() const noexcept { return Tickets(count_); }

    // Puts a value that was read in the store after the ticket was taken, if the key is absent. stale: the key was changed since, or that is
    // not known any more. Otherwise as by Writing::put_if_absent.
    [[nodiscard]] Written fill(uint64_t key, Ticket ticket, const Value &value) noexcept {
        return is_stale(key, ticket) ? Written{Status::stale, std::nullopt, 0, 0, false} : writing_.put_if_absent(key, value);
    }
    // Removes a key that was changed in the store before. spent: the key is still there, and no removal will succeed. Open a new cache.
    [[nodiscard]] Written remove(uint64_t key) noexcept {
        changed(key);
        return writing_.remove(key);
    }
    // Puts the key's new value, which is in the store. Only one thread may change the store then: of two, the later change's put could come
    // first. So remove the key if several do. If it fails, the key's old value may still be there: remove the key.
    [[nodiscard]] Written put(uint64_t key, const Value &value) noexcept {
        changed(key);
        return writing_.put(key, value);
    }
    // For all other calls. What it puts and removes is no change of the store.
    Writing<Words> &writing() noexcept { return writing_; }

  private:
    // Release: the store was changed before, so a thread whose ticket knows the change sees that of the store. The loads here are relaxed, since no
    // other thread stores.
    void changed(uint64_t key) noexcept {
        const uint64_t count = count_->load(std::memory_order_relaxed);
        keys_[count % keys_.size()] = key;
        count_->store(count + 1, std::memory_order_release);
    }
    bool is_stale(uint64_t key, Ticket ticket) const noexcept {
        const uint64_t count = count_->load(std::memory_order_relaxed);
        if (count - static_cast<uint64_t>(ticket) > keys_.size()) {
            return true;
        }
        for (uint64_t change = static_cast<uint64_t>(ticket); change < count; change++) {
            if (keys_[change % keys_.size()] == key) {
                return true;
            }
        }
        return false;
    }

    std::shared_ptr<std::atomic<uint64_t>> count_;
    std::vector<uint64_t> keys_; // of the last changes: change n at place n, modulo their number
    Writing<Words> writing_;
};

} // namespace cefrodil

#endif
