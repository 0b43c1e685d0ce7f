// A map answers as a plain map does, by one thread: it finds the value of a key's last put, or nothing if the key was evicted.
#include "cefrodil_map.hpp"
#include "must.h"
#include <algorithm>
#include <cstdlib>
#include <unordered_map>

using cefrodil::map;
using cefrodil::Status;
using cefrodil::Stored;

static uint64_t next_random() {
    static uint64_t state = 1;
    state = state * 6364136223846793005u + 1442695040888963407u;
    return state >> 33;
}

// A value that knows its key.
struct Version {
    uint64_t key;
    uint64_t number;
    uint32_t twice[2];
};

static bool is_of(uint64_t key, const Version &value) {
    return value.key == key && value.twice[0] == uint32_t(2 * value.number) && value.twice[1] == uint32_t(key);
}

// A map beside a plain one. A key that the plain map has may be evicted; then the plain map forgets it.
class Model {
  public:
    explicit Model(const cefrodil::MapOptions &options) { MUST(map_.open(options) == Status::ok); }

    void call(uint64_t kind, uint64_t key) {
        switch (kind % 16) {
        case 0: return put(key, map_.insert(key, version(key)), true);
        case 1:
        case 2: return put(key, map_.insert_or_assign(key, version(key)), false);
        case 3: return erase(key);
        case 4: return update(key, false);
        case 8: return update(key, true);
        case 5: return compute(key);
        case 6: MUST(map_.contains(key) == seen(key).has_value()); return;
        case 9: return find_many(key, next_random() % 100);
        case 7: return next_random() % 256 == 0 ? clear() : void();
        default: (void)seen(key); return;
        }
    }
    // Each key is found or was evicted, and none is counted twice.
    void end(uint64_t keys) {
        uint64_t found = 0;
        for (uint64_t key = 0; key < keys; key++) {
            found += seen(key).has_value();
        }
        MUST(found == map_.size() && found == size_ && size_ <= map_.capacity());
    }
    uint64_t evicted() const { return evicted_; }

  private:
    Version version(uint64_t key) {
        number_++;
        return {key, number_, {uint32_t(2 * number_), uint32_t(key)}};
    }
    // What the map has of a key, which is what the plain map has of it, or nothing.
    std::optional<Version> seen(uint64_t key) {
        const auto found = map_.find(key);
        const auto known = plain_.find(key);
        if (found) {
            MUST(is_of(key, *found) && known != plain_.end() && known->second == found->number);
        } else if (known != plain_.end()) {
            forgotten_++;
            plain_.erase(known);
        }
        MUST(forgotten_ <= evicted_ && map_.size() == size_);
        return found;
    }
    void put(uint64_t key, const Stored &stored, bool if_absent) {
        const bool there = stored.renewed || stored.status == Status::present;
        MUST(stored.status == Status::ok || stored.status == Status::no_path || stored.status == Status::all_recent ||
             (if_absent && stored.status == Status::present));
        MUST(!there || plain_.count(key) != 0);
        MUST(!if_absent || !stored.renewed);
        evicted_ += stored.evicted;
        size_ += stored.status == Status::ok && !stored.renewed && !stored.evicted;
        if (!there && plain_.erase(key) != 0) {
            forgotten_++;
        }
        if (stored.status == Status::ok) {
            plain_[key] = number_;
        }
        MUST((stored.status == Status::ok || there) == seen(key).has_value());
    }
    // Each value is that of its key, and no value is written behind them.
    void find_many(uint64_t key, size_t count) {
        uint64_t keys[100];
        std::optional<Version> values[101];
        for (uint64_t i = 0; i < count; i++) {
            keys[i] = (key + i * i) % 200;
        }
        std::fill_n(values, 101, Version{99, 98, {97, 96}});
        const size_t found = map_.find_many(keys, count, values);
        size_t there = 0;
        for (size_t i = 0; i < count; i++) {
            const auto one = seen(keys[i]);
            there += one.has_value();
            MUST(one.has_value() == values[i].has_value());
            MUST(!one || (is_of(keys[i], *values[i]) && values[i]->number == one->number));
        }
        MUST(there == found && values[count]->key == 99);
    }
    void erase(uint64_t key) {
        const bool there = seen(key).has_value();
        MUST(map_.erase(key) == (there ? Status::ok : Status::absent));
        size_ -= there;
        plain_.erase(key);
        MUST(!seen(key));
    }
    void update(uint64_t key, bool or_insert) {
        const auto before = seen(key);
        uint64_t calls = 0;
        const auto next = [&](const Version &old) {
            calls++;
            MUST(before && old.number == before->number);
            return version(key);
        };
        const auto updated = or_insert ? map_.update_or_insert(key, version(key), next) : map_.update(key, next);
        MUST(calls == before.has_value() && (!before || updated.value) && updated.value.has_value() == (updated.status == Status::ok));
        MUST(before || !or_insert ? updated.status == (before ? Status::ok : Status::absent) : updated.status != Status::absent);
        if (updated.value) {
            MUST(updated.value->number == number_);
            before ? void(plain_[key] = number_) : added(key);
        }
        MUST(seen(key).has_value() == updated.value.has_value());
    }
    void compute(uint64_t key) {
        const auto before = seen(key);
        const auto answer = map_.find_or_compute(key, [&] { return version(key); });
        MUST(answer.computed == !before && answer.value.number == (before ? before->number : number_));
        if (answer.computed && answer.status == Status::ok) {
            added(key);
        }
    }
    // Whether a new key evicted another one is seen by the size alone.
    void added(uint64_t key) {
        evicted_ += map_.size() == size_;
        size_ = map_.size();
        plain_[key] = number_;
    }
    void clear() {
        MUST(map_.clear() == Status::ok && map_.size() == 0);
        plain_.clear();
        size_ = 0;
    }

    map<uint64_t, Version> map_;
    std::unordered_map<uint64_t, uint64_t> plain_;
    uint64_t number_ = 0, size_ = 0, evicted_ = 0, forgotten_ = 0;
};

static uint64_t random_calls(const cefrodil::MapOptions &options, uint64_t keys, uint64_t calls) {
    Model model(options);
    for (uint64_t n = 0; n < calls; n++) {
        model.call(next_random(), next_random() % keys);
    }
    model.end(keys);
    return model.evicted();
}

// With an argument the calls are so many times fewer, for valgrind.
int main(int argc, char **argv) {
    const uint64_t fewer = argc > 1 ? std::strtoull(argv[1], nullptr, 10) : 1;
    MUST(random_calls({2000}, 200, 100000 / fewer) == 0);
    MUST(random_calls({60, 1}, 200, 100000 / fewer) > 1000 / fewer);
    MUST(random_calls({1, 4, 1}, 200, 20000 / fewer) > 1000 / fewer);
    return outcome("map_model");
}
