// Whether calls of one key, made by several threads, have an order in which each answer is right: each call takes effect at one moment between its
// begin and its end. The search is that of Wing and Gong (1993): it takes one call after the other that may come next, and remembers in which states it
// has been. Each value is put once, so it says which call put it.
#ifndef LINEAR_HPP
#define LINEAR_HPP

#include <algorithm>
#include <atomic>
#include <cstdint>
#include <cstdio>
#include <set>
#include <tuple>
#include <vector>

// What a key has: a value that was put, or nothing. And what a call asks of that, or leaves as it is.
static constexpr uint64_t absent = 0, present = UINT64_MAX - 1, whatever = UINT64_MAX;

// A call that has ended. A thread counts its begin and its end.
struct Call {
    const char *name;
    uint64_t begun, ended;
    uint64_t before = whatever, after = whatever; // what the key has: `whatever` leaves it as it is
    // Of what it puts: whether that may end or be evicted. A call that asks for `absent` may find such an entry gone. Then it was gone at that moment,
    // but only a call that writes says for how long. An update keeps that of the old value.
    bool may_end = false, keeps_end = false;
    // It writes, or tries to: all that was computed before it began comes before it.
    bool writes = false;
    uint64_t computed = UINT64_MAX; // when the value was computed that it put
};

// The calls of one key, up to 64, and what the key has at first.
class History {
  public:
    History(uint64_t value, bool may_end) : first_(value), first_may_end_(may_end) {}

    void add(const Call &call) { calls_.push_back(call); }
    size_t size() const { return calls_.size(); }
    bool has_order() {
        seen_.clear();
        all_ = calls_.size() == 64 ? UINT64_MAX : (uint64_t(1) << calls_.size()) - 1;
        return has_order_from({0, first_, first_may_end_});
    }
    void print() {
        std::sort(calls_.begin(), calls_.end(), [](const Call &one, const Call &other) { return one.begun < other.begun; });
        std::printf("at first %llx%s\n", static_cast<unsigned long long>(first_), first_may_end_ ? ", which may end" : "");
        for (const Call &call : calls_) {
            const auto number = [](uint64_t value) { return static_cast<long long>(value); };
            std::printf("%6lld to %6lld: %s, from %llx to %llx%s%s\n", number(call.begun), number(call.ended), call.name, number(call.before),
                        number(call.after), call.may_end ? ", may end" : "", call.computed != UINT64_MAX ? ", computed" : "");
        }
    }

  private:
    // Which calls have come, and what the key has.
    using State = std::tuple<uint64_t, uint64_t, bool>;

    bool has_order_from(const State &state) {
        const uint64_t done = std::get<0>(state);
        if (done == all_) {
            return true;
        }
        if (!seen_.insert(state).second) {
            return false;
        }
        for (size_t n = 0; n < calls_.size(); n++) {
            if ((done >> n & 1) == 0 && may_be_next(done, calls_[n]) && fits(calls_[n], state) && has_order_from(next(n, state))) {
                return true;
            }
        }
        return false;
    }
    // No call comes before one that had ended when it began, nor a write before a put of what had been computed then.
    bool may_be_next(uint64_t done, const Call &call) const {
        for (size_t n = 0; n < calls_.size(); n++) {
            const Call &other = calls_[n];
            if ((done >> n & 1) == 0 && (other.ended < call.begun || (call.writes && other.computed < call.begun))) {
                return false;
            }
        }
        return true;
    }
    static bool fits(const Call &call, const State &state) {
        const auto &[done, value, may_end] = state;
        switch (call.before) {
        case whatever: return true;
        case present: return value != absent;
        case absent: return value == absent || may_end;
        default: return call.before == value;
        }
    }
    State next(size_t n, const State &state) const {
        const Call &call = calls_[n];
        const auto &[done, value, may_end] = state;
        const bool stays = call.after == whatever;
        return {done | uint64_t(1) << n, stays ? value : call.after, stays || call.keeps_end ? may_end : call.may_end};
    }

    uint64_t first_, all_ = 0;
    bool first_may_end_;
    std::vector<Call> calls_{};
    std::set<State> seen_{};
};

#endif
