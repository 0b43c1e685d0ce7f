// What the calls of a map answer, by one thread. Keys that meet in the first word of their hash are told apart by the second. map_model.cpp draws calls.
#include "cefrodil_map.hpp"
#include "must.h"
#include <cstdlib>
#include <stdexcept>
#include <unistd.h>

using cefrodil::Computed;
using cefrodil::Found;
using cefrodil::HashPair;
using cefrodil::HashSecret;
using cefrodil::map;
using cefrodil::Status;
using cefrodil::Stored;

struct Seven {
    uint64_t words[7];
};
struct Padded {
    uint64_t owner;
    uint32_t rate;
};
struct Copied {
    int number = 0;
    Copied() = default;
    Copied(const Copied &other) : number(other.number) {}
};
static_assert(cefrodil::is_map_value<Seven> && cefrodil::is_map_value<bool> && cefrodil::is_map_value<double> && cefrodil::is_map_value<void *>);
static_assert(cefrodil::is_map_value<std::array<char, 56>> && !cefrodil::is_map_value<std::array<char, 57>> && !cefrodil::is_map_value<char[8]>);
static_assert(!cefrodil::is_map_value<Padded> && !cefrodil::is_map_value<Copied> && !cefrodil::is_map_value<std::string>);
static_assert(!cefrodil::is_map_value<const int> && !cefrodil::is_map_value<std::unique_ptr<int>>);

using Texts = map<std::string, uint64_t>;
using Numbers = map<uint64_t, uint64_t>;
static_assert(!std::is_copy_constructible_v<Texts> && !std::is_copy_assignable_v<Texts>);
static_assert(std::is_nothrow_move_constructible_v<Texts> && std::is_nothrow_move_assignable_v<Texts>);
static_assert(std::is_nothrow_default_constructible_v<Texts>);
static_assert(std::is_same_v<Texts::Key, std::string_view> && std::is_same_v<Numbers::Key, const uint64_t &>);
static_assert(std::is_same_v<map<std::string_view, int>::Key, std::string_view>);

// With SipHash no call throws, but what a function of the user throws. A hash that may throw says so.
struct Throwing {
    uint64_t operator()(const int &key, uint64_t seed) const { return uint64_t(unsigned(key)) + seed; }
};
template <class Any> Any &any() noexcept;
static_assert(noexcept(any<Texts>().find("")) && noexcept(any<Texts>().get("")) && noexcept(any<Texts>().peek("")) && noexcept(any<Texts>().contains("")));
static_assert(noexcept(any<Texts>().find_many(&any<std::string>(), 1, &any<std::optional<uint64_t>>())));
static_assert(!noexcept(any<map<int, int, Throwing>>().find_many(&any<int>(), 1, &any<std::optional<int>>())));
static_assert(noexcept(any<Texts>().insert("", 1)) && noexcept(any<Texts>().insert_or_assign("", 1)) && noexcept(any<Texts>().erase("")));
static_assert(noexcept(any<Texts>().open({1})) && noexcept(any<Texts>().clear()) && noexcept(any<Texts>().close()) && noexcept(any<Texts>().meter()));
static_assert(noexcept(any<const Texts>().size()) && noexcept(any<const Texts>().capacity()) && noexcept(any<const Texts>().is_open()));
static_assert(!noexcept(any<map<int, int, Throwing>>().find(1)) && !noexcept(any<map<int, int, Throwing>>().erase(1)));

static void openings() {
    Numbers numbers;
    MUST(numbers.open({0}) == Status::bad_items && numbers.open({100, 3}) == Status::bad_shards && numbers.open({100, 4, 0}) == Status::bad_handles);
    MUST(numbers.open({100, 4, 1025}) == Status::bad_handles && !numbers.is_open() && numbers.capacity() == 0);
    MUST(numbers.find(1) == std::nullopt && numbers.get(1).status == Status::closed && numbers.peek(1).status == Status::closed && !numbers.contains(1) && numbers.size() == 0);
    for (const cefrodil::Stored stored : {numbers.insert(1, 1), numbers.insert_or_assign(1, 1)}) {
        MUST(stored.status == Status::closed && !stored.renewed && !stored.evicted);
    }
    std::optional<uint64_t> found[2] = {1, 2};
    const uint64_t keys[2] = {1, 2};
    MUST(numbers.find_many(keys, 2, found) == 0 && !found[0] && !found[1]);
    MUST(numbers.erase(1) == Status::closed && numbers.clear() == Status::closed && numbers.close() == Status::closed);
    MUST(numbers.update(1, [](uint64_t n) { return n; }).status == Status::closed && numbers.meter().counts().hits == 0);
    MUST(numbers.update_or_insert(1, 1, [](uint64_t n) { return n; }).status == Status::closed);
    const Computed<uint64_t> computed = numbers.find_or_compute(1, [] { return uint64_t(7); });
    MUST(computed.status == Status::closed && computed.value == 7 && computed.computed);
    const cefrodil::MapOptions usual{100};
    MUST(usual.entries == 100 && usual.shards == 0 && usual.passes == 65 && usual.tries == 10000);
    MUST(numbers.open({100, 4, 1024}) == Status::ok && numbers.open({100}) == Status::in_use && numbers.is_open());
    cefrodil_shape shape{};
    MUST(cefrodil_shape_for_items(100, 4, &shape) == CEFRODIL_OK && 4 * shape.items > 110 && numbers.capacity() == 110);
    MUST(numbers.insert(1, 10).status == Status::ok && numbers.find(1) == 10u && !numbers.find(2));
    const cefrodil::Counts counts = numbers.meter().counts();
    MUST(counts.hits == 1 && counts.misses == 1 && counts.held == 0);
    Numbers moved = std::move(numbers);
    MUST(!numbers.is_open() && moved.find(1) == 10u && moved.close() == Status::ok && !moved.is_open());
    MUST(moved.open({100, 1, 1}) == Status::ok && !moved.contains(1) && moved.insert(1, 11).status == Status::ok && moved.find(1) == 11u);
}

// A full map finds a place for each new key, though its shards are small; or for all but one in a million. With fewer buckets 16 of 1,000 find none.
static void small_shards(const cefrodil::MapOptions &options, uint64_t keys) {
    Numbers numbers;
    MUST(numbers.open(options) == Status::ok);
    uint64_t refused = 0;
    for (uint64_t key = 0; key < keys; key++) {
        refused += numbers.insert(key, key).status != Status::ok;
    }
    MUST(refused <= 2 && numbers.size() <= numbers.capacity());
}

static void answers() {
    map<int, double> rates;
    MUST(rates.open({100}) == Status::ok && rates.size() == 0);
    const Stored first = rates.insert(-1, 0.5), second = rates.insert(-1, 0.75), third = rates.insert_or_assign(-1, 1.5);
    MUST(first.status == Status::ok && !first.renewed && !first.evicted && second.status == Status::present);
    MUST(third.status == Status::ok && third.renewed && !third.evicted && rates.find(-1) == 1.5 && rates.size() == 1);
    const Found<double> updated = rates.update(-1, [](const double &rate) { return rate + 1; });
    MUST(updated.status == Status::ok && updated.value == 2.5 && rates.find(-1) == 2.5);
    MUST(rates.update(2, [](double rate) { return rate; }).status == Status::absent && rates.get(2).status == Status::absent);
    const auto doubled = [](const double &rate) { return 2 * rate; };
    const Found<double> begun = rates.update_or_insert(3, 0.5, doubled), renewed = rates.update_or_insert(3, 0.5, doubled);
    MUST(begun.status == Status::ok && begun.value == 0.5 && renewed.value == 1.0 && rates.find(3) == 1.0 && rates.erase(3) == Status::ok);
    MUST(rates.erase(2) == Status::absent && rates.erase(-1) == Status::ok && rates.erase(-1) == Status::absent && rates.size() == 0);
    map<uint8_t, Seven> wide;
    MUST(wide.open({100}) == Status::ok && wide.insert(1, {{1, 2, 3, 4, 5, 6, 7}}).status == Status::ok);
    const auto found = wide.find(1);
    MUST(found && found->words[0] == 1 && found->words[3] == 4 && found->words[6] == 7);
}

// A value that was only peeked at leaves as if nobody had looked. One that was found stays.
static void peeks() {
    Numbers numbers;
    MUST(numbers.open({100, 1}) == Status::ok && numbers.peek(0).status == Status::absent);
    for (uint64_t key = 0; key <= 100; key++) {
        MUST(numbers.insert(key, key).status == Status::ok);
    }
    uint64_t peeked = 0, found = 0;
    for (uint64_t key = 0; key <= 100; key++) {
        const Found<uint64_t> seen = key % 2 == 0 ? numbers.get(key) : numbers.peek(key);
        MUST(seen.value ? seen.status == Status::ok && seen.value == key : seen.status == Status::absent);
    }
    for (uint64_t key = 1000; key < 1030; key++) {
        MUST(numbers.insert(key, key).evicted);
    }
    for (uint64_t key = 0; key <= 100; key++) {
        (key % 2 == 0 ? found : peeked) += numbers.contains(key);
    }
    MUST(found >= 50 && peeked <= 25 && numbers.meter().counts().hits + numbers.meter().counts().misses == 51 + 101);
}

// Hashes by which all keys have one of four numbers.
struct Narrow {
    std::shared_ptr<uint64_t> first_seed = std::make_shared<uint64_t>(0);
    uint64_t operator()(const uint64_t &key, uint64_t seed) const {
        *first_seed = *first_seed == 0 ? seed : *first_seed;
        return seed == *first_seed ? key % 4 : cefrodil::inside::sip_hash<1, 3>(&key, sizeof key, {seed, 0});
    }
};

struct NarrowPair {
    HashPair operator()(const uint64_t &key, const HashSecret &secret) const noexcept { return {key % 4, key ^ secret.second}; }
};

// An entry of one key is none of another key with its number.
template <class Hash> static void collisions() {
    map<uint64_t, uint64_t, Hash> narrow;
    MUST(narrow.open({100}) == Status::ok && narrow.insert(1, 10).status == Status::ok && narrow.find(1) == 10u);
    MUST(!narrow.find(5) && narrow.get(5).status == Status::absent && !narrow.contains(9));
    const uint64_t keys[3] = {5, 1, 9};
    std::optional<uint64_t> found[3];
    MUST(narrow.find_many(keys, 3, found) == 1 && !found[0] && found[1] == 10u && !found[2]);
    MUST(narrow.erase(5) == Status::absent && narrow.find(1) == 10u && narrow.size() == 1);
    MUST(narrow.update(5, [](uint64_t) { return uint64_t(0); }).status == Status::absent && narrow.find(1) == 10u);
    const Stored taken = narrow.insert(5, 50);
    MUST(taken.status == Status::ok && taken.evicted && !taken.renewed && narrow.find(5) == 50u && !narrow.find(1) && narrow.size() == 1);
    const auto never = [](uint64_t) { return uint64_t(0); };
    MUST(narrow.update_or_insert(1, 10, never).value == 10u && narrow.find(1) == 10u && !narrow.find(5) && narrow.size() == 1);
    MUST(narrow.insert_or_assign(9, 90).status == Status::ok && narrow.find(9) == 90u && !narrow.find(5) && narrow.size() == 1);
    const Computed<uint64_t> computed = narrow.find_or_compute(1, [] { return uint64_t(11); });
    MUST(computed.status == Status::ok && computed.computed && computed.value == 11 && narrow.find(1) == 11u && !narrow.find(9));
    for (uint64_t key = 0; key < 1000; key++) {
        MUST(narrow.insert(key, key).status == (key == 1 ? Status::present : Status::ok) && narrow.find(key) == (key == 1 ? 11u : key));
    }
    MUST(narrow.size() == 4 && narrow.clear() == Status::ok && narrow.size() == 0 && !narrow.contains(999));
}

// All lengths, with letters of any value. A text that differs by one letter is another key.
static void texts() {
    Texts texts;
    MUST(texts.open({1000}) == Status::ok);
    std::string text;
    for (uint64_t size = 0; size <= 40; size++) {
        MUST(texts.insert(text, size).status == Status::ok && texts.insert(std::string_view(text), 99).status == Status::present);
        text += static_cast<char>(size % 5 == 4 ? 0 : 250 - 3 * size);
    }
    for (size_t size = 0; size <= 40; size++) {
        MUST(texts.find(std::string_view(text.data(), size)) == size && texts.find(text.substr(0, size)) == size);
        for (size_t place = 0; place < size; place++) {
            std::string other = text.substr(0, size);
            other[place] = static_cast<char>(other[place] ^ 64);
            MUST(!texts.contains(other));
        }
    }
    MUST(texts.size() == 41 && texts.find("") == 0u && texts.find(std::string_view()) == 0u && texts.erase("") == Status::ok && !texts.find(""));
    MUST(texts.insert("name", 7).status == Status::ok && texts.find("name") == 7u && texts.find(std::string("name")) == 7u);
    map<std::string_view, int> views;
    const std::string_view names[3] = {"name", "none", std::string_view(text.data(), 40)};
    const std::string strings[2] = {"none", "name"};
    std::optional<uint64_t> found[3];
    MUST(texts.find_many(names, 3, found) == 2 && found[0] == 7u && !found[1] && found[2] == 40u);
    MUST(texts.find_many(strings, 2, found) == 1 && !found[0] && found[1] == 7u && texts.find_many(strings, 0, found) == 0 && found[1] == 7u);
    MUST(views.open({10}) == Status::ok && views.insert(std::string("gone"), 1).status == Status::ok && views.find("gone") == 1);
}

static uint64_t fibonacci(Numbers &known, uint64_t n, uint64_t &calls) {
    return known.find_or_compute(n, [&] {
        calls++;
        return n < 2 ? n : fibonacci(known, n - 1, calls) + fibonacci(known, n - 2, calls);
    }).value;
}

// A hash that gives each key the number that it is.
struct ByNumber {
    HashPair operator()(const uint64_t &key, const HashSecret &) const noexcept { return {key, key}; }
};

// Computes so many keys, each in the function of the one before, and clears the map in the last. Returns how many were put.
static uint64_t put_around_clear(map<uint64_t, uint64_t, ByNumber> &numbers, uint64_t keys) {
    if (keys == 0) {
        MUST(numbers.clear() == Status::ok);
        return 0;
    }
    uint64_t put = 0;
    const auto computed = numbers.find_or_compute(keys, [&] {
        put = put_around_clear(numbers, keys - 1);
        return keys;
    });
    MUST(computed.computed && computed.value == keys);
    return put + (computed.status != Status::stale);
}

// What is computed while the map is cleared is not put, whatever its key is.
static void computations_around_clear() {
    map<uint64_t, uint64_t, ByNumber> numbers;
    MUST(numbers.open({1000}) == Status::ok && put_around_clear(numbers, 100) == 0 && numbers.size() == 0);
}

// A hash with bits in few places, so that most keys would meet if the index took them as they are.
struct Sparse {
    HashPair operator()(const uint64_t &key, const HashSecret &) const noexcept { return {key << 52, key}; }
};

// The index mixes the bits of such a hash, so all keys have a place.
static void sparse_hashes() {
    map<uint64_t, uint64_t, Sparse> numbers;
    MUST(numbers.open({2000}) == Status::ok);
    for (uint64_t key = 0; key < 1000; key++) {
        MUST(numbers.insert(key, key).status == Status::ok);
    }
    MUST(numbers.size() == 1000 && numbers.find(999) == 999u);
}

// Each key of one call is looked up once, and nothing else is.
static void lookups_of_many_keys() {
    Numbers numbers;
    MUST(numbers.open({1000}) == Status::ok && numbers.insert(1, 10).status == Status::ok);
    const uint64_t keys[40] = {1, 2, 1};
    std::optional<uint64_t> values[40];
    const auto looked_up = [&](size_t count) {
        const cefrodil::Counts before = numbers.meter().counts();
        static_cast<void>(numbers.find_many(keys, count, values));
        const cefrodil::Counts after = numbers.meter().counts();
        return after.hits + after.misses - before.hits - before.misses;
    };
    MUST(looked_up(0) == 0 && looked_up(3) == 3 && looked_up(32) == 32 && looked_up(33) == 33 && looked_up(40) == 40);
}

// A function may call the map. If it changes its own key, what it computes is not put.
static void computations() {
    Numbers numbers;
    MUST(numbers.open({1000}) == Status::ok);
    uint64_t calls = 0;
    MUST(fibonacci(numbers, 90, calls) == 2880067194370816120 && calls == 91 && numbers.size() == 91);
    const auto outdated = [&](auto change) {
        const auto answer = numbers.find_or_compute(100, [&] {
            change();
            return uint64_t(5);
        });
        return answer.status == Status::stale && answer.value == 5 && answer.computed;
    };
    MUST(outdated([&] { (void)numbers.erase(100); }) && !numbers.contains(100));
    MUST(outdated([&] { (void)numbers.clear(); }) && !numbers.contains(100) && numbers.size() == 0);
    MUST(outdated([&] { (void)numbers.insert(100, 6); }) && numbers.find(100) == 6u && numbers.erase(100) == Status::ok);
    MUST(outdated([&] { (void)numbers.insert_or_assign(100, 6); (void)numbers.erase(100); }) && !numbers.contains(100));
    MUST(outdated([&] { (void)numbers.update(100, [](uint64_t n) { return n; }); }) && !numbers.contains(100));
    MUST(outdated([&] { (void)numbers.update_or_insert(100, 6, [](uint64_t n) { return n; }); }) && numbers.erase(100) == Status::ok);
    MUST(!outdated([&] { (void)numbers.erase(101); (void)numbers.insert(102, 1); }) && numbers.find(100) == 5u);
#ifdef __cpp_exceptions
    for (int round = 0; round < 2; round++) {
        bool caught = false;
        try {
            (void)numbers.find_or_compute(200, []() -> uint64_t { throw std::runtime_error("no number"); });
        } catch (const std::runtime_error &) {
            caught = true;
        }
        MUST(caught && !numbers.contains(200));
        try {
            (void)numbers.update(100, [](uint64_t) -> uint64_t { throw std::runtime_error("no number"); });
        } catch (const std::runtime_error &) {
            caught = false;
        }
        MUST(!caught && numbers.find(100) == 5u);
    }
#endif
    const Computed<uint64_t> computed = numbers.find_or_compute(200, [] { return uint64_t(8); });
    MUST(computed.status == Status::ok && computed.computed && numbers.find(200) == 8u);
}

// With an argument the calls are so many times fewer, for valgrind.
int main(int argc, char **argv) {
    const uint64_t fewer = argc > 1 ? std::strtoull(argv[1], nullptr, 10) : 1;
    alarm(argc > 1 ? 240 : 100); // so that a flight which never ends fails the test
    openings();
    peeks();
    small_shards({14}, 100000 / fewer);
    small_shards({28}, 100000 / fewer);
    small_shards({100, 4}, 100000 / fewer);
    answers();
    collisions<Narrow>();
    collisions<NarrowPair>();
    sparse_hashes();
    texts();
    lookups_of_many_keys();
    computations();
    computations_around_clear();
    return outcome("map");
}
