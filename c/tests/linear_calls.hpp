// The maps of linear.cpp, and the calls that its threads make.
#ifndef LINEAR_CALLS_HPP
#define LINEAR_CALLS_HPP

#include "cefrodil_object_map.hpp"
#include "drawn.hpp"
#include "linear.hpp"
#include "must.h"
#include "rounds.hpp"
#include <chrono>

using cefrodil::Status;
using std::chrono::nanoseconds;
using Map = cefrodil::map<uint64_t, uint64_t>;
using Timed = cefrodil::timed_map<uint64_t, uint64_t>;
// The hash of a map of objects. If it collides, the keys of the calls have the same one.
struct Hash {
    bool collides = false;
    cefrodil::HashPair operator()(uint64_t key, const cefrodil::HashSecret &secret) const {
        return cefrodil::SipHash<uint64_t>()(collides ? key / 2 : key, secret);
    }
};
using Objects = cefrodil::object_map<uint64_t, uint64_t, Hash>;

static constexpr uint64_t threads = 4, keys = 2, most_calls = 7, first_filler = 1000;

static std::atomic<uint64_t> counter{1};
// The clock of all maps goes on whenever it is asked.
static std::atomic<int64_t> ticks{0};
static nanoseconds clock_now() { return nanoseconds(ticks++); }

// A map under test.
template <class Any> struct Tested {
    explicit Tested(const Options &options) : how(options) { how.lives.clock = clock_now; }

    Options how;
    Any map{};
    std::atomic<uint64_t> put{0}, left{0}; // how many objects the map took, and of how many the listener heard

    uint64_t fillers() const { return map.capacity() + map.capacity() / 4 + 1; }
    // Other keys evict those of the calls.
    void fill(uint64_t number) { put += map.insert_or_assign(first_filler + number % fillers(), uint64_t(1)).status == Status::ok ? 1 : 0; }
};

// Why a call did nothing: other threads were first, or the object is refused.
static constexpr bool is_lost(Status status) {
    return status == Status::held || status == Status::busy || status == Status::changed || status == Status::too_heavy || status == Status::too_deep;
}
// Why a put found no place for a key that is absent.
static constexpr bool is_placeless(Status status) { return status == Status::no_path || status == Status::all_recent; }

// One thread's calls of a round.
template <class Any> class Caller {
  public:
    // Its values are its own.
    Caller(Tested<Any> &tested, uint64_t seed) : tested_(tested), random_{seed}, last_value_(counter++ << 16) {}

    struct Made {
        uint64_t key;
        Call call;
    };
    std::vector<Made> calls{};
    bool is_void = false; // a call removed some keys, and nobody knows which ones

    void call_often() {
        const uint64_t count = 1 + random_.below(most_calls);
        for (uint64_t n = 0; n < count; n++) {
            call_once(random_.below(keys));
        }
        MUST(std::all_of(pins_.begin(), pins_.end(), [](const auto &pin) { return *pin.first == pin.second; }));
        pins_.clear();
    }

  private:
    static constexpr bool is_objects = std::is_same_v<Any, Objects>, has_lives = !std::is_same_v<Any, Map>;

    void call_once(uint64_t key) {
        begun_ = counter++;
        switch (random_.below(18)) {
        case 0: case 1: return look(key);
        case 2: return look_otherwise(key);
        case 3: return insert(key);
        case 4: case 5: return put(key);
        case 6: case 7: return update(key);
        case 8: return update_or_insert(key);
        case 9: case 10: return erase(key);
        case 11: case 12: return compute(key);
        case 13: return tested_.how.has_lives ? put_for(key) : put(key);
        case 14: return tested_.how.has_lives ? update_for(key) : use_others();
        case 15: return look_at_each();
        case 16: return erase_if(key);
        default: return random_.below(2) != 0 ? remove_all() : use_others();
        }
    }
    uint64_t value() { return ++last_value_; }
    // A function of the user's may take its time.
    void pause() {
        if (random_.below(3) == 0) {
            sched_yield();
        }
    }
    nanoseconds life() { return random_.below(3) == 0 ? cefrodil::forever : nanoseconds(random_.below(30)); }

    Call made(const char *name, uint64_t before, uint64_t after) const {
        Call call{name, begun_, 0, before, after};
        call.may_end = tested_.how.may_end();
        return call;
    }
    void add(uint64_t key, Call call) {
        tested_.put += call.after != absent && call.after != whatever ? 1 : 0;
        call.ended = counter++;
        calls.push_back({key, call});
    }
    void add_write(uint64_t key, Call call) {
        call.writes = true;
        add(key, call);
    }

    // A call that found this, and put nothing. Without lives, what is absent stays so. With them, another call that found it may begin its time anew.
    Call looked(const char *name, uint64_t found) const { return made(name, found, found == absent && !tested_.how.has_lives ? absent : whatever); }

    void look(uint64_t key) {
        const auto found = tested_.map.get(key);
        if (found.status != Status::busy) {
            add(key, looked("get", found.value.value_or(absent)));
        }
    }
    void look_otherwise(uint64_t key) {
        if (random_.below(2) == 0) {
            const auto found = tested_.map.peek(key);
            return found.status != Status::held ? add(key, looked("peek", found.value.value_or(absent))) : void();
        }
        if constexpr (!is_objects) {
            std::optional<uint64_t> found;
            if (tested_.map.find_many(&key, 1, &found) == 1) {
                add(key, looked("find_many", *found));
            }
        } else if (random_.below(2) == 0) {
            if (cefrodil::pinned<uint64_t> pin = tested_.map.pin(key)) {
                add(key, looked("pin", *pin));
                const uint64_t value = *pin;
                pins_.emplace_back(std::move(pin), value);
            }
        } else if (tested_.map.contains(key)) {
            add(key, made("contains", present, whatever));
        }
    }
    // It looks each key up at a moment of its own.
    void look_at_each() {
        std::vector<uint64_t> found(keys, absent);
        const Status status = tested_.map.for_each([&](uint64_t key, uint64_t value) {
            MUST(key >= keys || found[key] == absent);
            key < keys ? void(found[key] = value) : void();
        });
        for (uint64_t key = 0; key < keys && status == Status::ok; key++) {
            add(key, looked("for_each", found[key]));
        }
        MUST(status == Status::ok || status == Status::held);
    }
    void insert(uint64_t key) {
        const uint64_t own = value();
        add_insert(key, made("insert", absent, own), tested_.map.insert(key, uint64_t(own)).status);
    }
    void add_insert(uint64_t key, Call call, Status status) {
        if (status == Status::present) {
            call.before = present, call.after = whatever;
        }
        add_put(key, call, status, status == Status::present);
    }
    void add_put(uint64_t key, Call call, Status status, bool is_present = false) {
        MUST(status == Status::ok || is_present || is_placeless(status) || is_lost(status));
        if (!is_lost(status)) {
            add_write(key, is_placeless(status) ? looked(call.name, absent) : call);
        }
    }
    void put(uint64_t key) {
        const uint64_t own = value();
        const Status status = tested_.map.insert_or_assign(key, uint64_t(own)).status;
        add_put(key, made("insert_or_assign", whatever, own), status);
    }
    void put_for(uint64_t key) {
        if constexpr (has_lives) {
            const uint64_t own = value();
            const nanoseconds lives = life();
            Call call = made("insert_or_assign_for", whatever, own);
            call.may_end = call.may_end || lives != cefrodil::forever;
            if (random_.below(2) == 0) {
                call.name = "insert_for", call.before = absent;
                return add_insert(key, call, tested_.map.insert_for(key, uint64_t(own), lives).status);
            }
            add_put(key, call, tested_.map.insert_or_assign_for(key, uint64_t(own), lives).status);
        }
    }

    static Status status_of(Status status) { return status; }
    static Status status_of(const cefrodil::Found<uint64_t> &found) { return found.status; }
    // An update by `made_by(function)`, whose function gives a value of its own each time.
    template <class Update> void add_update(uint64_t key, Call call, const Update &made_by) {
        uint64_t old = absent, own = absent;
        const Status status = status_of(made_by([&](uint64_t seen) {
            pause();
            return old = seen, own = value();
        }));
        if (status == Status::ok) {
            call.before = old, call.after = own;
            add_write(key, call);
        } else if (status == Status::absent) {
            call.before = absent, call.after = whatever;
            add_write(key, call);
        }
        MUST(status == Status::ok || status == Status::absent || is_lost(status));
    }
    // An update that leaves the value as it is.
    void decline(uint64_t key) {
        if constexpr (is_objects) {
            uint64_t old = absent;
            const Status status = tested_.map.update(key, [&](uint64_t seen) { return old = seen, std::optional<uint64_t>(); });
            if (!is_lost(status)) {
                MUST(status == Status::declined || status == Status::absent);
                add_write(key, looked("update", status == Status::declined ? old : absent));
            }
        }
    }
    void update(uint64_t key) {
        Call call = made("update", absent, absent);
        call.keeps_end = true;
        add_update(key, call, [&](const auto &function) { return tested_.map.update(key, function); });
    }
    void update_for(uint64_t key) {
        if constexpr (has_lives) {
            const nanoseconds lives = life();
            Call call = made("update_for", absent, absent);
            call.may_end = call.may_end || lives != cefrodil::forever;
            add_update(key, call, [&](const auto &function) { return tested_.map.update_for(key, lives, function); });
        }
    }
    void update_or_insert(uint64_t key) {
        if constexpr (is_objects) {
            decline(key);
        } else {
            uint64_t old = absent;
            const uint64_t first = value();
            const auto updated = tested_.map.update_or_insert(key, first, [&](uint64_t seen) { return old = seen, value(); });
            Call call = made("update_or_insert", updated.value == first ? absent : old, updated.value.value_or(absent));
            call.keeps_end = updated.value != first;
            if (updated.status == Status::ok) {
                add_write(key, call);
            }
        }
    }
    void erase(uint64_t key) {
        uint64_t old = present;
        Status status;
        if (random_.below(2) == 0) {
            const auto taken = tested_.map.extract(key);
            status = taken.status;
            old = status == Status::ok ? *taken.value : old;
        } else if constexpr (is_objects) {
            status = tested_.map.erase(key, [&](uint64_t seen) { old = seen; });
        } else {
            status = tested_.map.erase(key);
        }
        if (!is_lost(status)) {
            add_write(key, made("erase", status == Status::ok ? old : absent, absent));
        }
    }
    // It is asked of each key, and removes only this one.
    void erase_if(uint64_t key) {
        uint64_t old = absent;
        const cefrodil::Erased erased = tested_.map.erase_if([&](uint64_t each, uint64_t seen) { return each == key && (old = seen, true); });
        MUST(erased.count <= 1 && (erased.status == Status::ok || erased.status == Status::held));
        if (erased.count == 1 || erased.status == Status::ok) {
            add_write(key, erased.count == 1 ? made("erase_if", old, absent) : looked("erase_if", absent));
        }
    }
    // What it finds is a lookup's. What it computed and put was put where nothing was. Otherwise it says nothing of the map.
    void compute(uint64_t key) {
        uint64_t at = 0;
        const auto found = tested_.map.find_or_compute(key, [&] {
            at = counter++;
            pause();
            return value();
        });
        if (!found.computed) {
            return add(key, looked("find_or_compute", found.value));
        }
        if (found.status == Status::ok) {
            Call call = made("find_or_compute", absent, found.value);
            call.computed = at;
            add(key, call);
        }
        MUST(found.status == Status::ok || found.status == Status::stale || found.status == Status::present || is_placeless(found.status) ||
             is_lost(found.status));
    }
    void remove_all() {
        const bool clears = random_.below(2) == 0;
        const Status status = clears ? tested_.map.clear() : tested_.map.invalidate_all();
        is_void = is_void || status != Status::ok;
        for (uint64_t key = 0; key < keys && status == Status::ok; key++) {
            add_write(key, made(clears ? "clear" : "invalidate_all", whatever, absent));
        }
    }
    void use_others() {
        const uint64_t number = random_.below(tested_.fillers());
        if constexpr (has_lives) {
            static_cast<void>(tested_.map.erase_expired());
        }
        if (tested_.how.bounds) {
            const Status status = tested_.map.set_capacity(1 + random_.below(tested_.how.map.entries));
            MUST(status == Status::ok || status == Status::held);
        }
        if (tested_.how.is_full) {
            tested_.fill(number);
            static_cast<void>(tested_.map.contains(first_filler + number));
        }
    }

    Tested<Any> &tested_;
    Random random_;
    uint64_t begun_ = 0, last_value_;
    std::vector<std::pair<cefrodil::pinned<uint64_t>, uint64_t>> pins_{};
};

#endif
