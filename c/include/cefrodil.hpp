// Cefrodil for C++17: handles that move and close themselves, values as arrays, answers as types. It is a thin layer over cefrodil.h, which
// says what each call does and what its caller promises. A cache has shards, 1 or more, each with a turn to write. A Handle looks up, and tries
// for turns; a Writing holds them all. Each belongs to one thread at a time.
//
// No call that returns a status throws. Status::no_memory: the library or a vector of this header found no memory, and nothing was done. For
// a vector, it comes before other errors, and without exceptions the program ends.
#ifndef CEFRODIL_HPP
#define CEFRODIL_HPP

#include "cefrodil/inside/calls.hpp"
#include "cefrodil/inside/handle.hpp"
#include "cefrodil/inside/values.hpp"
#include <algorithm>
#include <array>
#include <cstddef>
#include <cstdint>
#include <optional>
#include <utility>
#include <vector>

namespace cefrodil {

template <size_t Words> class Writing;

// A thread's access to a cache whose values have `Words` words. Each write tries once for the turn of the key's shard. Its status is held if the
// try does not win: then nothing was done. Who wants to write without trying takes a Writing.
template <size_t Words> class Handle : public inside::Calls<Words> {
  public:
    using typename inside::Calls<Words>::Value;
    Handle() noexcept {}

    // Equivalent to get for each key in order. Each of the `count` values is written only if its answer's status is CEFRODIL_OK.
    [[nodiscard]] Status get_many(const uint64_t *keys, size_t count, Value *values, cefrodil_answer *answers) noexcept {
        static_assert(sizeof(Value) == Words * sizeof(uint64_t), "values lie one after the other");
        uint64_t *const words = count != 0 ? values->data() : nullptr;
        const cefrodil_status status = cefrodil_get_many_or_none(this->raw(), keys, count, words, Words * count, answers, count);
        this->counter().looked(answers, status == CEFRODIL_OK ? count : 0);
        return static_cast<Status>(status);
    }
    // Like get. A lookup that is busy tries once for the turn, and is not busy if it gets that.
    [[nodiscard]] Answer<Words> get_or_turn(uint64_t key) noexcept {
        cefrodil_reply reply;
        Value value;
        const cefrodil_status status = cefrodil_get_or_turn_of_width(this->raw(), key, value.data(), Words, &reply);
        return this->looked(status, reply, value);
    }
    // Looks the key up in a turn. That doesn't count as a use of it.
    [[nodiscard]] Answer<Words> try_peek(uint64_t key) noexcept { return this->peek(key); }

    [[nodiscard]] Written try_put(uint64_t key, const Value &value) noexcept { return this->put(key, value); }
    // Tries up to `tries` times, at least once.
    [[nodiscard]] Written put_within(uint32_t tries, uint64_t key, const Value &value) noexcept {
        cefrodil_reply reply;
        const cefrodil_status status = cefrodil_put_within(this->raw(), tries, key, value.data(), Words, &reply);
        return this->wrote(status, reply);
    }
    // Puts the keys in order, each in a turn of its own, as try_put does. A held key does not stop the later ones.
    [[nodiscard]] Status try_put_many(const uint64_t *keys, size_t count, const Value *values, cefrodil_put_answer *answers) noexcept {
        return this->put_many(keys, count, values, answers);
    }
    [[nodiscard]] Written try_put_if(uint64_t key, uint64_t since, const Value &value) noexcept { return this->put_if(key, since, value); }
    [[nodiscard]] Written try_put_if_absent(uint64_t key, const Value &value) noexcept { return this->put_if_absent(key, value); }
    // In a shard that is to hold at most `most` keys. If the key is new and its shard holds as many, another key of it leaves first, though items are
    // free. If the put fails then, `evicted` is the key that left all the same.
    [[nodiscard]] Written try_put_bounded(uint64_t key, uint32_t most, const Value &value) noexcept { return this->put_bounded(key, most, value); }
    [[nodiscard]] Written try_put_if_absent_bounded(uint64_t key, uint32_t most, const Value &value) noexcept {
        return this->put_if_absent_bounded(key, most, value);
    }
    [[nodiscard]] Written try_remove(uint64_t key) noexcept { return this->remove(key); }
    // Like try_put, try_put_if, try_put_if_absent and try_remove, and they also return the entry that gives way.
    [[nodiscard]] Swapped<Words> try_swap(uint64_t key, const Value &value) noexcept { return this->swap(key, value); }
    [[nodiscard]] Swapped<Words> try_swap_if(uint64_t key, uint64_t since, const Value &value) noexcept { return this->swap_if(key, since, value); }
    [[nodiscard]] Swapped<Words> try_swap_if_absent(uint64_t key, const Value &value) noexcept { return this->swap_if_absent(key, value); }
    // The same in a shard that is to hold at most `most` keys: like try_put_bounded. `evicted` and `old` have what left, also if the put fails.
    [[nodiscard]] Swapped<Words> try_swap_bounded(uint64_t key, uint32_t most, const Value &value) noexcept { return this->swap_bounded(key, most, value); }
    [[nodiscard]] Swapped<Words> try_swap_if_absent_bounded(uint64_t key, uint32_t most, const Value &value) noexcept {
        return this->swap_if_absent_bounded(key, most, value);
    }
    [[nodiscard]] Swapped<Words> try_take(uint64_t key) noexcept { return this->take(key); }
    // Takes the entry whose put was at `since`, and no later one.
    [[nodiscard]] Swapped<Words> try_take_if(uint64_t key, uint64_t since) noexcept { return this->take_if(key, since); }
    // Evicts a key without a put: the one that would give way to a new key if the shard of `near` were full. absent: that shard has no key.
    [[nodiscard]] Swapped<Words> try_evict(uint64_t near = 0) noexcept { return this->evict(near); }

    // Looks at the entry in this item, from 0, of the shard of `near`. It is no use of its key. absent: the item has none, or there are fewer items.
    [[nodiscard]] Shown<Words> try_entry_at(uint64_t near, uint32_t item) noexcept { return this->entry_at(near, item); }

    // Makes a call by this handle again while it is held: at most `tries` times, at least once, without a pause. `call` takes the handle, and
    // returns what its call returned: `handle.within(1000, [](auto &handle) { return handle.try_take(7); })`. Not for try_put_many, whose answers
    // say what was held.
    template <class Call> [[nodiscard]] auto within(uint32_t tries, Call call) {
        auto told = call(*this);
        for (uint32_t n = 1; n < tries && inside::status_of(told) == Status::held; n++) {
            told = call(*this);
        }
        return told;
    }

    // The number of keys, counted in a turn at each shard, one after the other. It is held if a try does not win.
    [[nodiscard]] Status try_len(uint64_t &number) noexcept { return this->len(number); }
    // Lists each key with its value, each shard in a turn of its own. `words` takes room for `capacity` entries, so that one try for each turn is
    // enough. It is held if one does not win. Unless ok, `words` is empty.
    [[nodiscard]] Status try_entries(std::vector<uint64_t> &words) noexcept {
        return this->list(1 + Words, words, cefrodil_capacity, cefrodil_entries_or_none);
    }
    // Like try_entries, with stamps: each entry is its key, its value, and then the moment of the key's last put.
    [[nodiscard]] Status try_stamped_entries(std::vector<uint64_t> &words) noexcept {
        return this->list(2 + Words, words, cefrodil_capacity, cefrodil_stamped_entries_or_none);
    }
    // The number of changes to all shards. It takes all turns for that, and gives them back. It is held if a try does not win.
    [[nodiscard]] Status try_moment(uint64_t &number) noexcept {
        Writing<Words> writing;
        const Status status = hold(writing);
        return status == Status::ok ? writing.moment(number) : status;
    }

    // Takes the turn of every shard, and holds them until `writing` ends. Meanwhile this handle is closed, and has to stay where it is: so declare
    // `writing` after it. held: one of the tries did not win. in_use: `writing` holds already. Unless ok, nothing was done.
    [[nodiscard]] Status hold(Writing<Words> &writing) & noexcept { return writing.begin(*this, this); }
    // Tries up to `tries` times, at least once, without a pause.
    [[nodiscard]] Status hold_within(uint32_t tries, Writing<Words> &writing) & noexcept {
        return this->within(tries, [&writing](Handle &handle) noexcept { return handle.hold(writing); });
    }
};

// A guard that holds the turns of all shards. Nobody else writes meanwhile: its writes are never held, its lookups never busy, and each list and
// number is that of one moment, of all shards. It begins by Handle::hold or by `own`, and ends with its scope or by `end`. A guard that holds nothing
// returns closed from each call.
template <size_t Words> class Writing : private inside::Calls<Words> {
    using Calls = inside::Calls<Words>;

  public:
    using typename Calls::Value;
    Writing() noexcept {}
    Writing(Writing &&other) noexcept : Calls(std::move(other)), lender_(std::exchange(other.lender_, nullptr)) {}
    Writing &operator=(Writing &&other) noexcept {
        if (this != &other) {
            end();
            Calls::operator=(std::move(other));
            lender_ = std::exchange(other.lender_, nullptr);
        }
        return *this;
    }
    ~Writing() { end(); }

    // Like Handle::hold, but the guard keeps the handle, too: for a program that writes in one place for good. Unless ok, `handle` is as it was.
    [[nodiscard]] Status own(Handle<Words> &&handle) noexcept { return begin(handle, nullptr); }
    // Gives the turns back, and returns the handle that `own` took. A guard that owns none does nothing, and returns a handle that is not open.
    [[nodiscard]] Handle<Words> disown() noexcept {
        Handle<Words> handle;
        if (lender_ == nullptr && holds()) {
            release_to(handle);
        }
        return handle;
    }
    // Gives the turns back. The handle that was lent is open again, and one that `own` took is closed.
    void end() noexcept {
        if (lender_ != nullptr) {
            release_to(*std::exchange(lender_, nullptr));
        } else {
            this->close();
        }
    }
    bool holds() const noexcept { return this->is_open(); }

    using Calls::get, Calls::put, Calls::put_if, Calls::put_if_absent, Calls::remove;
    // As Handle::try_put_bounded and Handle::try_put_if_absent_bounded.
    using Calls::put_bounded, Calls::put_if_absent_bounded;
    // Like put, put_if, put_if_absent and remove, and they also return the entry that gives way.
    using Calls::swap, Calls::swap_if, Calls::swap_if_absent, Calls::take;
    // As Handle::try_swap_bounded and Handle::try_swap_if_absent_bounded.
    using Calls::swap_bounded, Calls::swap_if_absent_bounded;
    // Takes the entry whose put was at `since`, and no later one.
    using Calls::take_if;
    // As Handle::try_evict and Handle::try_entry_at.
    using Calls::evict, Calls::entry_at;
    // Equivalent to put for each key in order.
    using Calls::put_many;
    // Looks the key up, but doesn't count as a use of it.
    using Calls::peek;
    // Loads the words that a lookup of the key will read.
    using Calls::prefetch;
    // The number of changes to all shards.
    [[nodiscard]] Status moment(uint64_t &number) noexcept { return static_cast<Status>(cefrodil_moment(this->raw(), &number)); }
    // The number of keys, and of those that all shards hold together at most.
    using Calls::len, Calls::capacity;
    // Each key with its value, one entry after the other. Unless ok, `words` is empty.
    [[nodiscard]] Status entries(std::vector<uint64_t> &words) noexcept {
        return this->list(1 + Words, words, cefrodil_len, cefrodil_entries_or_none);
    }
    // Lists the entries with stamps: each entry is its key, its value, and then the moment of the key's last put.
    [[nodiscard]] Status stamped_entries(std::vector<uint64_t> &words) noexcept {
        return this->list(2 + Words, words, cefrodil_len, cefrodil_stamped_entries_or_none);
    }
    using Calls::meter, Calls::more;
    // The handle for calls of cefrodil.h other than cefrodil_release. These calls are not counted.
    using Calls::raw;

  private:
    friend class Handle<Words>;
    Status begin(Handle<Words> &handle, Handle<Words> *lender) noexcept {
        if (holds()) {
            return Status::in_use;
        }
        const Status status = inside::Counting::tried(handle, cefrodil_hold(handle.raw()));
        if (status == Status::ok) {
            inside::Counting::move(handle, *this);
            lender_ = lender;
        }
        return status;
    }
    void release_to(Handle<Words> &handle) noexcept {
        // It holds, so this can't fail.
        const cefrodil_status released = cefrodil_release(this->raw());
        static_cast<void>(released);
        inside::Counting::move(*this, handle);
    }

    Handle<Words> *lender_ = nullptr; // null: the guard owns the handle
};

// The shape of each of `shards` shards that hold `items` items together, or none if one of both is out of range. There is none, either, if no cache
// can be opened: over an archive of another version (Status::other_version), and on a processor that is too old (Status::processor).
[[nodiscard]] inline std::optional<cefrodil_shape> shape_for_items(uint32_t items, uint32_t shards = 1) noexcept {
    cefrodil_shape shape{};
    if (!inside::same_version() || cefrodil_shape_for_items(items, shards, &shape) != CEFRODIL_OK) {
        return std::nullopt;
    }
    return shape;
}

// Opens a cache of `shards` shards with `count` handles, which replace those in `handles`. Unless ok, `handles` is unchanged.
template <size_t Words>
[[nodiscard]] Status open(const cefrodil_shape &shape, uint32_t shards, size_t count, std::vector<Handle<Words>> &handles) noexcept {
    return inside::open_all(handles, inside::allowed(count), inside::new_lines, [&](cefrodil_handle *raw, size_t many) {
        return cefrodil_open(&shape, shards, Words, raw, many);
    });
}

// Like open, and puts these entries: each its key and then its value, as Writing::entries and Handle::try_entries list them. `statuses` gets the
// status of each. Unless ok, nothing changes.
template <size_t Words>
[[nodiscard]] Status open_with(const cefrodil_shape &shape, uint32_t shards, size_t count, const std::vector<uint64_t> &entries,
                               std::vector<Handle<Words>> &handles, std::vector<Status> &statuses) noexcept {
    std::vector<cefrodil_status> raw;
    std::vector<Status> told;
    const auto grow = [&] {
        raw.resize(entries.size() / (1 + Words));
        told.resize(raw.size());
        return inside::new_lines();
    };
    const Status status = inside::open_all(handles, inside::allowed(count), grow, [&](cefrodil_handle *opened, size_t many) {
        return cefrodil_open_with_or_none(&shape, shards, Words, entries.data(), entries.size(), raw.data(), raw.size(), opened, many);
    });
    if (status == Status::ok) {
        std::transform(raw.begin(), raw.end(), told.begin(), [](cefrodil_status each) { return static_cast<Status>(each); });
        statuses = std::move(told);
    }
    return status;
}

} // namespace cefrodil

#endif
