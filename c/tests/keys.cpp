// No key has another key's value if a hash takes in all by which keys differ: whatever it makes of that. Keys whose hash takes in less are one key.
#include "cefrodil_map.hpp"
#include "must.h"

using cefrodil::HashPair;
using cefrodil::HashSecret;
using cefrodil::SipHash;
using cefrodil::Status;

static constexpr uint64_t keys = 30000;

struct Halves {
    uint32_t high, low;
};
struct Wide {
    uint64_t high, low;
};
enum class Number : uint32_t {};

// Of a key, one number that has both of its members.
struct OneNumber {
    HashPair operator()(const Halves &key, const HashSecret &secret) const noexcept {
        return SipHash<uint64_t>()(uint64_t(key.high) << 32 | key.low, secret);
    }
};
struct TwoSeeds {
    uint64_t operator()(const Halves &key, uint64_t seed) const noexcept { return SipHash<uint64_t>()(uint64_t(key.high) << 32 | key.low, seed); }
};
// Of each member two words, and of these two more.
struct Combined {
    HashPair operator()(const Halves &key, const HashSecret &secret) const noexcept {
        const HashPair high = SipHash<uint32_t>()(key.high, secret), low = SipHash<uint32_t>()(key.low, secret);
        return {high.first + 3 * low.first, high.second + 3 * low.second};
    }
};
// A text with its number, which is less than the text.
struct Atom {
    std::string text;
    uint32_t number;
};
struct OfText {
    HashPair operator()(const Atom &key, const HashSecret &secret) const noexcept { return SipHash<std::string_view>()(key.text, secret); }
};
struct OfNumber {
    HashPair operator()(const Atom &key, const HashSecret &secret) const noexcept { return SipHash<uint32_t>()(key.number, secret); }
};

// Puts a value for each key, in a map that has no room for half of them. Each lookup finds the key's own value, or none.
template <class K, class Hash = SipHash<K>, class Make> static void own_values(Make key_of) {
    cefrodil::map<K, uint64_t, Hash> values;
    MUST(values.open({keys / 2}) == Status::ok);
    for (uint64_t number = 0; number < keys; number++) {
        const K key = key_of(number);
        MUST(!values.find(key) && values.insert(key, number).status == Status::ok && values.find(key) == number);
    }
    uint64_t found = 0;
    for (uint64_t number = 0; number < keys; number++) {
        const std::optional<uint64_t> value = values.find(key_of(number));
        found += value.has_value();
        MUST(!value || value == number);
    }
    MUST(found > keys / 4);
}

template <class Hash> static bool are_one(const Atom &one, const Atom &other) {
    cefrodil::map<Atom, uint64_t, Hash> values;
    MUST(values.open({100}) == Status::ok && values.insert(one, 41).status == Status::ok && values.find(one) == 41u);
    return values.contains(other);
}

int main() {
    const auto halves = [](uint64_t number) { return Halves{uint32_t(number % 300), uint32_t(number / 300)}; };
    own_values<uint64_t>([](uint64_t number) { return number; });
    own_values<int16_t>([](uint64_t number) { return int16_t(number); });
    own_values<Number>([](uint64_t number) { return Number(number); });
    own_values<Halves>(halves);
    own_values<Wide>([](uint64_t number) { return Wide{number % 300, number / 300}; });
    own_values<std::string>([](uint64_t number) { return std::to_string(number); });
    own_values<Halves, OneNumber>(halves);
    own_values<Halves, TwoSeeds>(halves);
    own_values<Halves, Combined>(halves);
    const Atom ann{"ann", 3}, bob{"bob", 3};
    MUST(!are_one<OfText>(ann, bob) && are_one<OfNumber>(ann, bob));
    return outcome("keys");
}
