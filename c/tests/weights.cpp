// A map of objects with a bound on weights: the sum is exact, and is within the bound after each call. What weighs more alone is refused.
// Argument: by how much less to do.
#include "cefrodil_object_map.hpp"
#include "must.h"
#include <algorithm>
#include <array>
#include <cstdlib>
#include <map>
#include <vector>

using cefrodil::Left;
using cefrodil::object_map;
using cefrodil::Status;
using Numbers = object_map<uint64_t, uint64_t>;

// Each value weighs what it is.
static uint64_t own_weight(const uint64_t &, const uint64_t &value) { return value; }

static Numbers::Rules bounded(uint64_t most) {
    Numbers::Rules rules;
    rules.weigher = own_weight;
    rules.most_weight = most;
    return rules;
}

static void answers() {
    Numbers numbers;
    MUST(numbers.weight() == 0 && numbers.open({100}) == Status::ok && numbers.insert(1, 10).status == Status::ok && numbers.weight() == 0);
    MUST(numbers.close() == Status::ok && numbers.open({1000}, bounded(100)) == Status::ok && numbers.weight() == 0);
    MUST(numbers.insert(1, 30).status == Status::ok && numbers.insert(2, 20).status == Status::ok && numbers.weight() == 50);
    MUST(numbers.insert(1, 40).status == Status::present && numbers.weight() == 50);
    MUST(numbers.insert_or_assign(1, 35).renewed && numbers.weight() == 55 && numbers.size() == 2);
    MUST(numbers.update(1, [](uint64_t old) { return old + 5; }) == Status::ok && numbers.weight() == 60);
    MUST(numbers.find_or_compute(3, [] { return uint64_t(40); }).status == Status::ok && numbers.weight() == 100 && numbers.size() == 3);
    MUST(numbers.erase(2) == Status::ok && numbers.weight() == 80 && numbers.erase(2) == Status::absent && numbers.weight() == 80);
    MUST(numbers.clear() == Status::ok && numbers.weight() == 0 && numbers.size() == 0);
    // The bound itself is no more than the bound.
    MUST(numbers.insert(4, 100).status == Status::ok && numbers.weight() == 100 && numbers.find(4) == 100u);
    MUST(numbers.insert(5, 0).status == Status::ok && numbers.contains(4));
    Numbers weightless;
    MUST(weightless.open({100}, bounded(0)) == Status::ok && weightless.insert(1, 0).status == Status::ok && weightless.contains(1));
    MUST(weightless.insert(2, 1).status == Status::too_heavy && weightless.contains(1));
    Numbers largest;
    MUST(largest.open({100}, bounded(uint64_t(-1))) == Status::ok && largest.insert(1, (uint64_t(1) << 48) + 1).status == Status::too_heavy);
    MUST(largest.insert(1, uint64_t(1) << 48).status == Status::ok && largest.weight() == uint64_t(1) << 48);
    MUST(std::string(cefrodil::text(Status::too_heavy)) == "the entry weighs more than the map may hold");
}

// What weighs more than the bound changes nothing, and comes back.
static void too_heavy() {
    object_map<std::string, std::unique_ptr<std::string>> texts;
    decltype(texts)::Rules rules;
    int weighed = 0;
    rules.weigher = [&](const std::string &key, const auto &value) { return weighed++, key.size() + (value ? value->size() : 0); };
    rules.most_weight = 100;
    MUST(texts.open({1000}, rules) == Status::ok && texts.insert("a", std::make_unique<std::string>(49, 'x')).status == Status::ok);
    auto heavy = std::make_unique<std::string>(100, 'y');
    MUST(texts.insert("b", std::move(heavy)).status == Status::too_heavy && heavy && heavy->size() == 100 && weighed == 2);
    MUST(texts.insert_or_assign("a", std::move(heavy)).status == Status::too_heavy && heavy && texts.weight() == 50 && texts.size() == 1);
    MUST(texts.insert("a", std::move(heavy)).status == Status::present && heavy);
    MUST(texts.update("a", [](const auto &) { return std::make_unique<std::string>(100, 'z'); }) == Status::too_heavy);
    size_t size = 0;
    MUST(texts.look("a", [&](const auto &value) { size = value->size(); }) == Status::ok && size == 49 && !texts.contains("b"));
    MUST(texts.insert("b", nullptr).status == Status::ok && texts.weight() == 51);
    Numbers numbers;
    MUST(numbers.open({1000}, bounded(100)) == Status::ok);
    const auto computed = numbers.find_or_compute(1, [] { return uint64_t(101); });
    MUST(computed.status == Status::too_heavy && computed.value == 101 && computed.computed && !numbers.contains(1) && numbers.weight() == 0);
}

// Those leave that came first, but for those that were looked up since their put.
static void order() {
    std::vector<uint64_t> left;
    Numbers numbers;
    Numbers::Rules rules = bounded(100);
    rules.listener = [&](const uint64_t &key, const uint64_t &, Left why) { why == Left::evicted ? left.push_back(key) : void(); };
    MUST(numbers.open({1000, 1}, rules) == Status::ok);
    for (uint64_t key = 1; key <= 4; key++) {
        MUST(!numbers.insert(key, 25).evicted);
    }
    MUST(numbers.insert(5, 25).evicted && left == std::vector<uint64_t>{1} && numbers.weight() == 100 && numbers.size() == 4);
    MUST(numbers.contains(3) && numbers.insert(6, 60).evicted && (left == std::vector<uint64_t>{1, 2, 4, 5}));
    MUST(numbers.weight() == 85 && numbers.contains(3) && numbers.contains(6));
    left.clear();
    // One that grows may make others leave, and stays.
    MUST(numbers.insert_or_assign(3, 90).renewed && left == std::vector<uint64_t>{6} && numbers.find(3) == 90u && numbers.weight() == 90);
    MUST(numbers.update(3, [](uint64_t) { return uint64_t(100); }) == Status::ok && numbers.weight() == 100);
    MUST(numbers.insert(7, 0).status == Status::ok);
    MUST(numbers.find_or_compute(8, [] { return uint64_t(1); }).status == Status::ok && !numbers.contains(3) && numbers.weight() == 1);
}

// Some keys are used again and again, and many others once: 400 between two uses of a key. Returns how many lookups of the former miss.
static uint64_t misses(const cefrodil::MapOptions &options, const Numbers::Rules &rules) {
    constexpr uint64_t used = 50, rounds = 100;
    Numbers numbers;
    MUST(numbers.open(options, rules) == Status::ok);
    uint64_t missed = 0;
    for (uint64_t n = 0; n < used * rounds; n++) {
        missed += !numbers.contains(n % used);
        MUST(numbers.insert_or_assign(n % used, 1).status == Status::ok);
        for (uint64_t other = 0; n >= 2 * used && other < 8; other++) {
            MUST(numbers.insert(1000 + 8 * n + other, 1).status == Status::ok);
        }
    }
    return missed;
}

// Keys that are used once evict none that are used often, though there is room for 100 alone.
static void used_keys_stay() {
    MUST(misses({100, 1}, {}) == 50 && misses({200, 1}, bounded(100)) == 50);
}

// Though a shard has few objects or none, others leave for a new one.
static void a_new_object_stays() {
    for (const uint32_t shards : {1, 16, 256}) {
        Numbers numbers;
        MUST(numbers.open({1000, shards}, bounded(100)) == Status::ok);
        for (uint64_t key = 0; key < 200; key++) {
            const auto stored = key % 2 == 0 ? numbers.insert(key, 25) : numbers.insert_or_assign(key, 25);
            MUST(stored.status == Status::ok && stored.evicted == (key >= 4) && numbers.peek(key).value == 25u);
            MUST(numbers.weight() == numbers.size() * 25 && numbers.size() == std::min<uint64_t>(key + 1, 4));
        }
    }
}

// A key is its own number in the index, once that is mixed.
struct Plain {
    cefrodil::HashPair operator()(const uint64_t &key, const cefrodil::HashSecret &) const noexcept { return {key, key}; }
};

// The shard with the most objects evicts, whatever is put into which one.
static void shares() {
    object_map<uint64_t, uint64_t, Plain> numbers;
    MUST(numbers.open({1000, 2}, bounded(1000)) == Status::ok);
    std::array<std::vector<uint64_t>, 2> keys;
    uint64_t last = 0;
    const auto fill = [&](uint64_t shard, uint64_t weight, uint64_t count) {
        while (count > 0) {
            if ((cefrodil::inside::mixed(++last) >> 48 & 1) == shard) {
                MUST(numbers.insert(last, uint64_t(weight)).status == Status::ok && numbers.peek(last).value == weight);
                keys[shard].push_back(last);
                count--;
            }
        }
    };
    const auto stay = [&](uint64_t shard) {
        return std::count_if(keys[shard].begin(), keys[shard].end(), [&](uint64_t key) { return numbers.peek(key).value.has_value(); });
    };
    fill(0, 50, 10);
    fill(1, 10, 1000);
    MUST(stay(0) == 10 && stay(1) == 50 && numbers.weight() == 1000);
    fill(0, 10, 1000);
    MUST(stay(1) == 30 && numbers.weight() > 950 && numbers.weight() <= 1000);
}

// Of eight shards, from the next one on, the one with the most objects is to evict. Here each has as many as its number says.
static void the_fullest_of_eight() {
    using cefrodil::inside::key_of_shard;
    cefrodil::inside::Weights weights(1000);
    weights.divide(16);
    for (uint64_t shard = 0; shard < 16; shard++) {
        for (uint64_t object = 0; object < shard; object++) {
            weights.add(key_of_shard(shard), 1);
        }
    }
    for (uint64_t next = 0; next < 16; next++) {
        MUST(weights.fullest() == key_of_shard(std::min<uint64_t>(next + 7, 15)));
    }
}

// As many objects leave as must, however many shards without one are looked at between two of them.
static void few_of_many_shards() {
    object_map<uint64_t, uint64_t, Plain> numbers;
    MUST(numbers.open({1000, 256}, bounded(100)) == Status::ok);
    for (uint64_t key = 0; numbers.size() < 4; key++) {
        const bool is_in = (cefrodil::inside::mixed(key) >> 48 & 255) == 200;
        MUST(!is_in || numbers.insert(key, 25).status == Status::ok);
    }
    MUST(numbers.weight() == 100 && numbers.insert(UINT64_MAX, 100).evicted && numbers.weight() == 100 && numbers.size() == 1);
}

// Without a weigher a map has room for as many entries as were asked for, and for a tenth more in several shards.
static void entries_alone() {
    for (const uint32_t shards : {1, 4, 0}) {
        Numbers numbers;
        MUST(numbers.open({1000, shards}) == Status::ok && numbers.capacity() == (shards == 1 ? 1000 : 1100));
        for (uint64_t key = 0; key < 1000; key++) {
            const auto stored = numbers.insert(key, uint64_t(key));
            MUST(stored.status == Status::ok && !stored.evicted);
        }
        MUST(numbers.size() == 1000 && numbers.weight() == 0 && numbers.insert_or_assign(1, 2).renewed && numbers.size() == 1000);
        uint64_t evicted = 0;
        for (uint64_t key = 1000; key < 10000; key++) {
            evicted += numbers.insert(key, uint64_t(key)).evicted;
        }
        MUST(numbers.size() == 10000 - evicted && numbers.size() <= numbers.capacity() && numbers.size() > numbers.capacity() - numbers.capacity() / 20);
        MUST(numbers.meter().counts().evictions == evicted);
    }
}

// What waits to be freed weighs at most a sixteenth of the bound, and an object, if no call uses it.
static void waiting() {
    static std::atomic<long> living{0};
    struct Heavy {
        Heavy() { living++; }
        Heavy(Heavy &&) noexcept { living++; }
        ~Heavy() { living--; }
    };
    object_map<uint64_t, Heavy> map;
    decltype(map)::Rules rules;
    rules.weigher = [](const uint64_t &, const Heavy &) { return uint64_t(16); };
    rules.most_weight = 256;
    MUST(map.open({1000}, rules) == Status::ok);
    for (uint64_t key = 0; key < 100; key++) {
        MUST(map.insert(key, Heavy()).status == Status::ok && living <= 18 && map.weight() <= 256);
    }
    MUST(map.size() == 16 && map.close() == Status::ok && living == 0);
}

static uint64_t next_random(uint64_t &state) {
    state = state * 6364136223846793005 + 1442695040888963407;
    return state >> 33;
}

// All keys have few numbers in the index.
struct Meeting {
    cefrodil::HashPair operator()(const uint64_t &key, const cefrodil::HashSecret &) const noexcept { return {key % 40, key}; }
};

// The listener keeps a model of what is there. The sum of its weights is that of the map after each call.
template <class Hash> static void agrees_with_a_model(const cefrodil::MapOptions &options, uint64_t most, uint64_t calls) {
    std::map<uint64_t, uint64_t> model;
    uint64_t sum = 0, evicted = 0, drawn = 1;
    // What a call puts. That may leave at once, once the listener has heard of what it replaces.
    std::optional<std::pair<uint64_t, uint64_t>> put;
    object_map<uint64_t, uint64_t, Hash> map;
    Numbers::Rules rules = bounded(most);
    rules.listener = [&](const uint64_t &key, const uint64_t &value, Left why) {
        evicted += why == Left::evicted;
        if (model.count(key) == 0) {
            MUST(put && put->first == key && put->second == value && why == Left::evicted);
            put.reset();
            return;
        }
        MUST(model[key] == value);
        model.erase(key);
        sum -= value;
    };
    MUST(map.open(options, rules) == Status::ok);
    for (uint64_t n = 0; n < calls; n++) {
        const uint64_t key = next_random(drawn) % 300, value = next_random(drawn) % 100, kind = next_random(drawn) % 5;
        const uint64_t before = evicted;
        put = {key, value};
        cefrodil::Stored stored{Status::absent, false, false};
        switch (kind) {
        case 0: stored = map.insert(key, uint64_t(value)); break;
        case 1: stored = map.insert_or_assign(key, uint64_t(value)); break;
        case 2: stored.status = map.update(key, [&](uint64_t) { return value; }); stored.evicted = before != evicted; break;
        case 3: static_cast<void>(map.erase(key)); break;
        default: static_cast<void>(map.contains(key));
        }
        MUST(stored.evicted == (before != evicted));
        if (stored.status == Status::ok && put) {
            model[key] = value;
            sum += value;
        }
        MUST(map.weight() == sum && sum <= most && map.size() == model.size());
    }
    MUST(evicted > calls / 20);
    for (const auto &[key, value] : model) {
        MUST(map.find(key) == value);
    }
}

// Threads put, update and remove. When all have ended, the sum is within the bound, and is that of what is there.
static void threads(const cefrodil::MapOptions &options, uint64_t calls) {
    constexpr uint64_t most = 5000, keys = 400;
    std::atomic<uint64_t> entered{0}, left{0}, wrong{0};
    Numbers map;
    Numbers::Rules rules = bounded(most);
    rules.listener = [&](const uint64_t &, const uint64_t &value, Left) { left += value; };
    MUST(map.open(options, rules) == Status::ok);
    const auto work = [&](uint64_t drawn) {
        for (uint64_t n = 0; n < calls; n++) {
            const uint64_t key = next_random(drawn) % keys, value = next_random(drawn) % 100;
            const auto count = [&](Status status) { entered += status == Status::ok ? value : 0; };
            switch (next_random(drawn) % 6) {
            case 0: count(map.insert(key, uint64_t(value)).status); break;
            case 1:
            case 2: count(map.insert_or_assign(key, uint64_t(value)).status); break;
            case 3: count(map.update(key, [&](uint64_t) { return value; })); break;
            case 4: static_cast<void>(map.erase(key)); break;
            default: static_cast<void>(map.find(key));
            }
            // Each call under way may have added one weight.
            wrong += map.weight() > most + 4 * 100;
        }
    };
    for (uint64_t round = 1; round <= 5; round++) {
        std::vector<std::thread> running;
        for (uint64_t n = 1; n <= 4; n++) {
            running.emplace_back(work, n + 10 * round);
        }
        std::for_each(running.begin(), running.end(), [](std::thread &thread) { thread.join(); });
        uint64_t sum = 0, count = 0;
        for (uint64_t key = 0; key < keys; key++) {
            const auto value = map.find(key);
            sum += value.value_or(0), count += value.has_value();
        }
        MUST(wrong == 0 && map.weight() == sum && sum <= most && sum == entered - left && map.size() == count);
        MUST(round > 1 || sum > most / 2 || options.entries < 100);
    }
}

static void the_bound_changes() {
    Numbers numbers;
    MUST(numbers.set_most_weight(1) == Status::closed && numbers.open({1000, 1}, bounded(100)) == Status::ok);
    for (uint64_t key = 0; key < 10; key++) {
        MUST(numbers.insert(key, 10).status == Status::ok);
    }
    // What is used stays.
    MUST(numbers.contains(3) && numbers.set_most_weight(35) == Status::ok && numbers.weight() == 30 && numbers.size() == 3 && numbers.contains(3));
    MUST(numbers.insert(20, 36).status == Status::too_heavy && numbers.insert(20, 10).status == Status::ok && numbers.weight() == 30);
    MUST(numbers.set_most_weight(UINT64_MAX) == Status::ok && numbers.insert(21, uint64_t(1) << 47).status == Status::ok && numbers.size() == 4);
    MUST(numbers.insert(22, UINT64_MAX).status == Status::too_heavy);
    MUST(numbers.set_most_weight(0) == Status::ok && numbers.size() == 0 && numbers.weight() == 0 && numbers.insert(1, 1).status == Status::too_heavy);
    const cefrodil::Counts counts = numbers.counts();
    MUST(numbers.set_most_weight(9) == Status::ok && numbers.insert(5, 9).status == Status::ok && counts.entries == 0 && counts.weight == 0);
    MUST(numbers.counts().entries == 1 && numbers.counts().weight == 9 && numbers.counts().capacity == numbers.capacity() && numbers.counts().evictions != 0);
    // No weigher, no bound.
    Numbers plain;
    MUST(plain.open({1000}) == Status::ok && plain.insert(1, 1).status == Status::ok && plain.set_most_weight(0) == Status::ok && plain.size() == 1);
}

int main(int argc, char **argv) {
    const uint64_t less = argc > 1 ? std::strtoull(argv[1], nullptr, 10) : 1;
    answers();
    too_heavy();
    order();
    used_keys_stay();
    a_new_object_stays();
    shares();
    the_fullest_of_eight();
    few_of_many_shards();
    entries_alone();
    waiting();
    the_bound_changes();
    agrees_with_a_model<cefrodil::SipHash<uint64_t>>({1000}, 1000, 30000 / less);
    agrees_with_a_model<cefrodil::SipHash<uint64_t>>({20, 2}, 1000, 30000 / less);
    agrees_with_a_model<Meeting>({1000}, 1000, 30000 / less);
    threads({1000}, 20000 / less);
    threads({1000, 1, 3}, 20000 / less);
    threads({60, 2, 3}, 20000 / less);
    return outcome("weights");
}
