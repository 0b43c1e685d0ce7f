// A map knows a key by two words. By default they are a SipHash-1-3 of 128 bits; for a key of up to 8 bytes, one of 64 bits and the key itself. The
// secret is drawn at the opening. A hash of the user's has the two words of SipHash for a key of any size.
#include "cefrodil_map.hpp"
#include "must.h"
#include "sip_vectors.h"
#include <numeric>
#include <sys/syscall.h>
#include <unistd.h>

using cefrodil::HashPair;
using cefrodil::HashSecret;
using cefrodil::Status;

// The kernel's random numbers come through this function, which may refuse them, or give 0, 1, 2, ..
static enum { random_numbers, known_numbers, refused } kernel = random_numbers;
static size_t drawn = 0;

extern "C" ssize_t getrandom(void *block, size_t size, unsigned flags) {
    drawn += size;
    if (kernel == random_numbers) {
        return syscall(SYS_getrandom, block, size, flags);
    }
    std::iota(static_cast<char *>(block), static_cast<char *>(block) + size, char(0));
    return kernel == known_numbers ? static_cast<ssize_t>(size) : -1;
}

// The secret that is drawn where the kernel's numbers are known.
static constexpr HashSecret numbered{0x0706050403020100, 0x0f0e0d0c0b0a0908};

static bool is_row(const HashPair &hash, const uint64_t (&row)[2]) { return hash.first == row[0] && hash.second == row[1]; }

// Each length of a text, from each place in memory.
static void sip_hashes() {
    unsigned char bytes[48];
    for (size_t place = 0; place < 8; place++) {
        for (size_t i = 0; i < 40; i++) {
            bytes[place + i] = static_cast<unsigned char>(i);
        }
        for (size_t size = 0; size < 41; size++) {
            MUST((cefrodil::inside::sip_hash<2, 4>(bytes + place, size, numbered) == sip_2_4[size]));
            MUST((cefrodil::inside::sip_hash<1, 3>(bytes + place, size, {0, 0}) == sip_1_3[size]));
            MUST(is_row(cefrodil::inside::sip_hash_pair<2, 4>(bytes + place, size, numbered), sip_2_4_128[size]));
            MUST(is_row(cefrodil::inside::sip_hash_pair<1, 3>(bytes + place, size, numbered), sip_1_3_128[size]));
        }
    }
    const uint64_t number = 0x0706050403020100;
    const std::string three("\0\1\2", 3);
    MUST(is_row(cefrodil::SipHash<std::string>()(three, numbered), sip_1_3_128[3]));
    MUST(is_row(cefrodil::SipHash<std::array<uint64_t, 2>>()({number, 0x0f0e0d0c0b0a0908}, numbered), sip_1_3_128[16]));
    MUST(cefrodil::SipHash<uint64_t>()(number, 0) == sip_1_3[8] && cefrodil::SipHash<std::string>()(three, 0) == sip_1_3[3]);
    // By the command in sip_vectors.h, with hexkey:00010203040506070000000000000000 and size:8.
    MUST(cefrodil::SipHash<uint64_t>()(number, number) == 0x5124317f8cfc24cb);
    MUST(cefrodil::SipHash<std::string>()(three, number) == 0xb0dc73387a51665c);
}

struct Halves {
    uint32_t high, low;
};
enum class Colour : uint16_t { red = 0x0100 };

// The two words by which a map without a hash of the user's knows a key, if the kernel gives this secret.
template <class Key> static HashPair known_by(const Key &key) {
    cefrodil::inside::Identities<const Key &, cefrodil::SipHash<Key>> identities({});
    kernel = known_numbers;
    MUST(identities.draw());
    kernel = random_numbers;
    const auto known = identities.of(key);
    return {known.index, known.check};
}

// A key of up to 8 bytes is its own check word, to a map that has no other hash. A larger one is not.
static void small_keys() {
    const uint64_t number = 0x0706050403020100;
    const auto hash = [](const void *key, size_t size) { return cefrodil::inside::sip_hash<1, 3>(key, size, numbered); };
    MUST(is_row(known_by(number), {hash(&number, 8), number}) && is_row(known_by(uint16_t(0x0100)), {hash(&number, 2), 0x0100}));
    MUST(is_row(known_by(std::array<char, 3>{0, 1, 2}), {hash(&number, 3), 0x020100}));
    MUST(known_by(-1).second == 0xffffffff && known_by(Colour::red).second == 0x0100 && known_by(&drawn).second == reinterpret_cast<uintptr_t>(&drawn));
    MUST(is_row(known_by(Halves{0x03020100, 0x07060504}), {hash(&number, 8), number}));
    MUST(is_row(known_by(std::array<uint64_t, 2>{number, 0x0f0e0d0c0b0a0908}), sip_1_3_128[16]));
}

// What a hash of the user's calls takes no number for itself.
static void hashes_of_small_keys() {
    const uint64_t number = 0x0706050403020100;
    MUST(is_row(cefrodil::SipHash<uint64_t>()(number, numbered), sip_1_3_128[8]));
    MUST(is_row(cefrodil::SipHash<uint16_t>()(0x0100, numbered), sip_1_3_128[2]));
    MUST(is_row(cefrodil::SipHash<std::array<char, 3>>()({0, 1, 2}, numbered), sip_1_3_128[3]));
}

// Hashes that tell what they were asked with. One has 128 bits, and one has 64.
static int asked = 0;
struct TellingPair {
    HashPair operator()(const int &key, const HashSecret &secret) const noexcept {
        asked += key;
        return {secret.first, secret.second};
    }
};
struct TellingSeed {
    uint64_t operator()(const int &key, uint64_t seed) const noexcept {
        asked += key;
        return seed;
    }
};

// A call of the map throws what its hash may throw.
struct ThrowingPair {
    HashPair operator()(const int &key, const HashSecret &) const { return {uint64_t(unsigned(key)), 0}; }
};
template <class Hash> static constexpr bool never_throws = cefrodil::inside::Identities<const int &, Hash>::never_throws;
static_assert(never_throws<TellingPair> && never_throws<TellingSeed> && never_throws<cefrodil::SipHash<int>> && !never_throws<ThrowingPair>);

// A key's number and its check word are of a secret that is drawn. The hash is called so often for both.
template <class Hash> static void secrets(int calls) {
    cefrodil::inside::Identities<const int &, Hash> one(Hash{}), other(Hash{});
    drawn = 0;
    MUST(one.draw() && other.draw() && drawn == 32);
    MUST(one.of(1).index != one.of(1).check && one.of(1).index != other.of(1).index && one.of(1).check != other.of(1).check);
    MUST(one.of(1).index != 0 && one.of(1).check != 0);
    kernel = known_numbers;
    asked = 0;
    // The finalizer of MurmurHash3 of the first number.
    MUST(one.draw() && one.of(1).index == 0xf6267fb0e11aec07 && one.of(1).check == numbered.second && asked == 2 * calls);
    kernel = refused;
    MUST(!one.draw());
    kernel = random_numbers;
}

// By default the number and the check word are the two words of SipHash-1-3.
static void default_hashes() {
    cefrodil::inside::Identities<std::string_view, cefrodil::SipHash<std::string>> texts({});
    std::string text;
    kernel = known_numbers;
    MUST(texts.draw());
    for (size_t size = 0; size < 41; size++) {
        const auto known_by = texts.of(text);
        MUST(is_row({known_by.index, known_by.check}, sip_1_3_128[size]));
        text += static_cast<char>(size);
    }
    kernel = random_numbers;
}

// A hash that has something of its own: where it counts its calls.
static int calls_elsewhere = 0;
struct CallsCounted {
    int *calls = &calls_elsewhere;
    HashPair operator()(const int &key, const HashSecret &) const noexcept {
        *calls += 1;
        return {uint64_t(unsigned(key)), 0};
    }
};

// A map uses the hash that it is opened with.
static void hashes_of_openings() {
    int calls = 0;
    cefrodil::map<int, int, CallsCounted> numbers;
    MUST(numbers.open({100}, CallsCounted{&calls}) == Status::ok && calls == 0);
    MUST(numbers.insert(1, 10).status == Status::ok && calls == 1 && numbers.find(1) == 10 && calls == 2);
}

// An opening draws one secret.
static void openings() {
    cefrodil::map<int, int> numbers;
    kernel = refused;
    MUST(numbers.open({100}) == Status::no_random && !numbers.is_open() && std::string(cefrodil::text(Status::no_random)) == "the kernel gave no random numbers");
    kernel = random_numbers;
    drawn = 0;
    MUST(numbers.open({100}) == Status::ok && drawn == 16);
}

int main() {
    sip_hashes();
    small_keys();
    hashes_of_small_keys();
    secrets<TellingPair>(1);
    secrets<TellingSeed>(2);
    default_hashes();
    hashes_of_openings();
    openings();
    return outcome("hashes");
}
