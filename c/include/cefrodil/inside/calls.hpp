// The calls that a Handle and a Writing of cefrodil.hpp have in common: those of cefrodil.h, with values as arrays and answers as types. What they
// come to is counted.
#ifndef CEFRODIL_INSIDE_CALLS_HPP
#define CEFRODIL_INSIDE_CALLS_HPP

#include "handle.hpp"
#include <array>
#include <cstddef>
#include <cstdint>
#include <optional>
#include <vector>

namespace cefrodil {

template <size_t Words> class Handle;

namespace inside {

inline Written written(cefrodil_status status, const cefrodil_reply &reply) noexcept {
    std::optional<uint64_t> evicted;
    if (reply.put == CEFRODIL_PUT_EVICTED) {
        evicted = reply.evicted;
    }
    return {static_cast<Status>(status), evicted, reply.at, reply.since, reply.put == CEFRODIL_PUT_RENEWED};
}

// `gone`: an entry has given way.
template <size_t Words> Swapped<Words> swapped(const Written &write, const std::array<uint64_t, Words> &old, bool gone) noexcept {
    Swapped<Words> told{write.status, write.evicted, std::nullopt, write.at, gone ? write.since : 0, gone ? 0 : write.since};
    if (gone) {
        told.old = old;
    }
    return told;
}

// A handle with its calls, for values of `Words` words. A Writing has them by their names, and a Handle as its tries.
template <size_t Words> class Calls : public OpenHandle {
    static_assert(Words >= 1 && Words <= 8, "a value has 1 to 8 words");

  public:
    using Value = std::array<uint64_t, Words>;

    [[nodiscard]] Answer<Words> get(uint64_t key) noexcept {
        cefrodil_reply reply;
        Value value;
        const cefrodil_status status = cefrodil_get_of_width(raw(), key, value.data(), Words, &reply);
        return looked(status, reply, value);
    }
    // Loads the words that a lookup of the key will read (cefrodil_prefetch).
    Status prefetch(uint64_t key) noexcept { return static_cast<Status>(cefrodil_prefetch(raw(), key)); }
    // The number of keys that all shards hold together at most.
    [[nodiscard]] Status capacity(uint64_t &number) noexcept { return static_cast<Status>(cefrodil_capacity(raw(), &number)); }
    // Opens `count` more handles of the same cache, also while others work or hold. They replace those in `handles`, so take another vector than
    // that of this handle. Each meter of the cache counts their calls, too. bad_handles: the cache has fewer to spare (cefrodil_more). held:
    // another call takes spare handles at the same moment. no_memory: some may be used up. Unless ok, `handles` is unchanged.
    [[nodiscard]] Status more(size_t count, std::vector<Handle<Words>> &handles) noexcept {
        return open_all(handles, allowed(count), [&] { return Counting::lines(*this); }, [&](cefrodil_handle *opened, size_t many) {
            return cefrodil_more(raw(), opened, many);
        });
    }

  protected:
    Calls() noexcept {}
    Calls(Calls &&) noexcept = default;
    Calls &operator=(Calls &&) noexcept = default;
    ~Calls() = default;

    Written put(uint64_t key, const Value &value) noexcept {
        cefrodil_reply reply;
        const cefrodil_status status = cefrodil_put_of_width(raw(), key, value.data(), Words, &reply);
        return wrote(status, reply);
    }
    [[nodiscard]] Written put_if(uint64_t key, uint64_t since, const Value &value) noexcept {
        cefrodil_reply reply;
        const cefrodil_status status = cefrodil_put_if(raw(), key, since, value.data(), Words, &reply);
        return wrote(status, reply);
    }
    [[nodiscard]] Written put_if_absent(uint64_t key, const Value &value) noexcept {
        cefrodil_reply reply;
        const cefrodil_status status = cefrodil_put_if_absent(raw(), key, value.data(), Words, &reply);
        return wrote(status, reply);
    }
    [[nodiscard]] Written put_bounded(uint64_t key, uint32_t most, const Value &value) noexcept {
        cefrodil_reply reply;
        const cefrodil_status status = cefrodil_put_bounded(raw(), key, most, value.data(), Words, &reply);
        return wrote(status, reply);
    }
    [[nodiscard]] Written put_if_absent_bounded(uint64_t key, uint32_t most, const Value &value) noexcept {
        cefrodil_reply reply;
        const cefrodil_status status = cefrodil_put_if_absent_bounded(raw(), key, most, value.data(), Words, &reply);
        return wrote(status, reply);
    }
    Written remove(uint64_t key) noexcept {
        cefrodil_reply reply;
        const cefrodil_status status = cefrodil_remove(raw(), key, &reply);
        return wrote(status, reply);
    }
    [[nodiscard]] Status put_many(const uint64_t *keys, size_t count, const Value *values, cefrodil_put_answer *answers) noexcept {
        static_assert(sizeof(Value) == Words * sizeof(uint64_t), "values lie one after the other");
        const uint64_t *words = count != 0 ? values->data() : nullptr;
        const cefrodil_status status = cefrodil_put_many_or_none(raw(), keys, count, words, Words * count, answers, count);
        for (size_t i = 0; status == CEFRODIL_OK && i < count; i++) {
            counter().wrote(static_cast<cefrodil_status>(answers[i].status), answers[i].reply);
        }
        return static_cast<Status>(status);
    }

    [[nodiscard]] Swapped<Words> swap(uint64_t key, const Value &value) noexcept {
        cefrodil_reply reply;
        Value old{};
        const cefrodil_status status = cefrodil_swap(raw(), key, value.data(), Words, old.data(), Words, &reply);
        return swapped<Words>(wrote(status, reply), old, reply.put > CEFRODIL_PUT_STORED);
    }
    [[nodiscard]] Swapped<Words> swap_if(uint64_t key, uint64_t since, const Value &value) noexcept {
        cefrodil_reply reply;
        Value old{};
        const cefrodil_status status = cefrodil_swap_if(raw(), key, since, value.data(), Words, old.data(), Words, &reply);
        return swapped<Words>(wrote(status, reply), old, status == CEFRODIL_OK);
    }
    [[nodiscard]] Swapped<Words> swap_if_absent(uint64_t key, const Value &value) noexcept {
        cefrodil_reply reply;
        Value old{};
        const cefrodil_status status = cefrodil_swap_if_absent(raw(), key, value.data(), Words, old.data(), Words, &reply);
        return swapped<Words>(wrote(status, reply), old, reply.put == CEFRODIL_PUT_EVICTED);
    }
    [[nodiscard]] Swapped<Words> swap_bounded(uint64_t key, uint32_t most, const Value &value) noexcept {
        cefrodil_reply reply;
        Value old{};
        const cefrodil_status status = cefrodil_swap_bounded(raw(), key, most, value.data(), Words, old.data(), Words, &reply);
        return swapped<Words>(wrote(status, reply), old, reply.put > CEFRODIL_PUT_STORED);
    }
    [[nodiscard]] Swapped<Words> swap_if_absent_bounded(uint64_t key, uint32_t most, const Value &value) noexcept {
        cefrodil_reply reply;
        Value old{};
        const cefrodil_status status = cefrodil_swap_if_absent_bounded(raw(), key, most, value.data(), Words, old.data(), Words, &reply);
        return swapped<Words>(wrote(status, reply), old, reply.put == CEFRODIL_PUT_EVICTED);
    }
    [[nodiscard]] Swapped<Words> take(uint64_t key) noexcept {
        cefrodil_reply reply;
        Value old{};
        const cefrodil_status status = cefrodil_take(raw(), key, old.data(), Words, &reply);
        return swapped<Words>(wrote(status, reply), old, status == CEFRODIL_OK);
    }
    [[nodiscard]] Swapped<Words> take_if(uint64_t key, uint64_t since) noexcept {
        cefrodil_reply reply;
        Value old{};
        const cefrodil_status status = cefrodil_take_if(raw(), key, since, old.data(), Words, &reply);
        return swapped<Words>(wrote(status, reply), old, status == CEFRODIL_OK);
    }
    [[nodiscard]] Swapped<Words> evict(uint64_t near = 0) noexcept {
        cefrodil_reply reply;
        Value old{};
        const cefrodil_status status = cefrodil_evict(raw(), near, old.data(), Words, &reply);
        Written write = wrote(status, reply);
        if (status == CEFRODIL_OK) {
            write.evicted = reply.evicted;
        }
        return swapped<Words>(write, old, status == CEFRODIL_OK);
    }

    [[nodiscard]] Shown<Words> entry_at(uint64_t near, uint32_t item) noexcept {
        cefrodil_reply reply;
        Value value;
        const Status status = Counting::tried(*this, cefrodil_entry_at(raw(), near, item, value.data(), Words, &reply));
        Shown<Words> shown{status, reply.evicted, std::nullopt, reply.since};
        if (status == Status::ok) {
            shown.value = value;
        }
        return shown;
    }
    // It is no use of the key, so it isn't counted as a lookup.
    [[nodiscard]] Answer<Words> peek(uint64_t key) noexcept {
        cefrodil_reply reply;
        Value value;
        const Status status = Counting::tried(*this, cefrodil_peek(raw(), key, value.data(), Words, &reply));
        return answer(status, reply, value);
    }
    [[nodiscard]] Status len(uint64_t &number) noexcept { return Counting::tried(*this, cefrodil_len(raw(), &number)); }

    // Lists entries of `each` words by one call of C. `most`: gives how many there are at most, so that they all have room.
    template <class Most, class List> [[nodiscard]] Status list(size_t each, std::vector<uint64_t> &words, Most most, List call) noexcept {
        uint64_t count = 0;
        Status status = static_cast<Status>(most(raw(), &count));
        if (status == Status::ok && !has_memory([&] { words.resize(count * each); })) {
            status = Status::no_memory;
        }
        if (status == Status::ok) {
            status = Counting::tried(*this, call(raw(), words.data(), words.size(), &count));
        }
        words.resize(status == Status::ok ? count * each : 0);
        return status;
    }

    Answer<Words> looked(cefrodil_status status, const cefrodil_reply &reply, const Value &value) noexcept {
        counter().looked(status);
        return answer(static_cast<Status>(status), reply, value);
    }
    Written wrote(cefrodil_status status, const cefrodil_reply &reply) noexcept {
        counter().wrote(status, reply);
        return written(status, reply);
    }

  private:
    static Answer<Words> answer(Status status, const cefrodil_reply &reply, const Value &value) noexcept {
        Answer<Words> told{status, std::nullopt, reply.at, reply.since};
        if (status == Status::ok) {
            told.value = value;
        }
        return told;
    }
};

} // namespace inside

} // namespace cefrodil

#endif
