// Keyed hashes for both maps: SipHash, by Jean-Philippe Aumasson and Daniel J. Bernstein (2012). It is designed so that nobody who does not
// know the secret can choose keys whose hashes meet.
#ifndef CEFRODIL_INSIDE_HASH_HPP
#define CEFRODIL_INSIDE_HASH_HPP

#include "../../cefrodil.h"
#include <cstddef>
#include <cstdint>
#include <cstring>
#include <memory>
#include <string>
#include <string_view>
#include <sys/random.h>
#include <type_traits>
#include <utility>

namespace cefrodil {

// The secret of a hash: 128 random bits.
struct HashSecret {
    uint64_t first;
    uint64_t second;
};

// The two words by which a map knows a key.
struct HashPair {
    uint64_t first;
    uint64_t second;
};

namespace inside {

// The four words of SipHash, as its paper names them.
class SipState {
  public:
    // `begin`: what tells hashes of 64 bits from those of 128.
    SipState(const HashSecret &secret, uint64_t begin) noexcept
        : v0_(secret.first ^ 0x736f6d6570736575), v1_(secret.second ^ 0x646f72616e646f6d ^ begin), v2_(secret.first ^ 0x6c7967656e657261),
          v3_(secret.second ^ 0x7465646279746573) {}

    // Takes the bytes as words, the last of which has the number of bytes, modulo 256, in its highest byte.
    template <int Rounds> [[gnu::always_inline]] void take(const void *data, size_t size) noexcept {
        const auto *bytes = static_cast<const unsigned char *>(data);
        size_t left = size;
        for (; left >= sizeof(uint64_t); left -= sizeof(uint64_t), bytes += sizeof(uint64_t)) {
            uint64_t word;
            std::memcpy(&word, bytes, sizeof word);
            take_word<Rounds>(word);
        }
        uint64_t last = 0;
        if (left != 0) {
            std::memcpy(&last, bytes, left);
        }
        take_word<Rounds>(last | uint64_t(size) << 56);
    }
    // The first word of the hash, and then the second one.
    template <int Rounds> [[gnu::always_inline]] uint64_t first(uint64_t end) noexcept {
        v2_ ^= end;
        rounds<Rounds>();
        return v0_ ^ v1_ ^ v2_ ^ v3_;
    }
    template <int Rounds> [[gnu::always_inline]] uint64_t second() noexcept {
        v1_ ^= 0xdd;
        rounds<Rounds>();
        return v0_ ^ v1_ ^ v2_ ^ v3_;
    }

  private:
    // Compiled into their callers, so that the four words stay in registers.
    template <int Rounds> [[gnu::always_inline]] void take_word(uint64_t word) noexcept {
        v3_ ^= word;
        rounds<Rounds>();
        v0_ ^= word;
    }
    static uint64_t rotated(uint64_t word, int bits) noexcept { return word << bits | word >> (64 - bits); }

    template <int Rounds> [[gnu::always_inline]] void rounds() noexcept {
        for (int round = 0; round < Rounds; round++) {
            v0_ += v1_;
            v2_ += v3_;
            v1_ = rotated(v1_, 13) ^ v0_;
            v3_ = rotated(v3_, 16) ^ v2_;
            v0_ = rotated(v0_, 32) + v3_;
            v2_ += v1_;
            v3_ = rotated(v3_, 21) ^ v0_;
            v1_ = rotated(v1_, 17) ^ v2_;
            v2_ = rotated(v2_, 32);
        }
    }

    uint64_t v0_, v1_, v2_, v3_;
};

// SipHash of 64 bits, with so many rounds for each word and at the end.
template <int Rounds, int FinalRounds> uint64_t sip_hash(const void *data, size_t size, const HashSecret &secret) noexcept {
    SipState state(secret, 0);
    state.take<Rounds>(data, size);
    return state.first<FinalRounds>(0xff);
}
// The same of up to eight bytes, which the word has. It is passed in a register: a lookup would wait for it in memory.
template <int Rounds, int FinalRounds, size_t Size> uint64_t sip_hash_few(uint64_t word, const HashSecret &secret) noexcept {
    SipState state(secret, 0);
    state.take<Rounds>(&word, Size);
    return state.first<FinalRounds>(0xff);
}
// SipHash of 128 bits: another hash than the one above.
template <int Rounds, int FinalRounds> HashPair sip_hash_pair(const void *data, size_t size, const HashSecret &secret) noexcept {
    SipState state(secret, 0xee);
    state.take<Rounds>(data, size);
    const uint64_t first = state.first<FinalRounds>(0xee);
    return {first, state.second<FinalRounds>()};
}

template <class Key> inline constexpr bool is_string = std::is_same_v<Key, std::string> || std::is_same_v<Key, std::string_view>;

} // namespace inside

// The hash of a map, unless the program gives it another: SipHash-1-3 of a string's letters, or of the bytes of any other key. With a secret it
// returns two words, a hash of 128 bits. With a seed it returns a hash of 64 bits: for hashes of yours. A key is
// - a std::string or a std::string_view. A `const char *` as the key's type is a pointer: its address is the key, not its letters.
// - an integer, an enum or a pointer, or a std::array of them.
// - a trivially copyable struct without padding, whose bytes are its value. No float is: 0.0 and -0.0 are equal, but have other bytes.
// No std::pair and no std::tuple is such a struct: write one with the same members, or a hash of your own.
// Don't specialize it: a map takes its bits as they are. Give the map a hash type of yours instead.
template <class Key> struct SipHash {
    HashPair operator()(const Key &key, const HashSecret &secret) const noexcept {
        return inside::sip_hash_pair<1, 3>(std::addressof(key), sizeof key, secret);
    }
    uint64_t operator()(const Key &key, uint64_t seed) const noexcept {
        return inside::sip_hash<1, 3>(std::addressof(key), sizeof key, {seed, 0});
    }
    static_assert(std::has_unique_object_representations_v<Key>,
                  "equal keys need equal bytes, so no padding or float, nor std::pair or std::tuple: write a struct, or give the map a hash for "
                  "this key");
};
template <> struct SipHash<std::string> {
    HashPair operator()(std::string_view key, const HashSecret &secret) const noexcept {
        return inside::sip_hash_pair<1, 3>(key.data(), key.size(), secret);
    }
    uint64_t operator()(std::string_view key, uint64_t seed) const noexcept {
        return inside::sip_hash<1, 3>(key.data(), key.size(), {seed, 0});
    }
};
template <> struct SipHash<std::string_view> : SipHash<std::string> {};

namespace inside {

// A key in the index: the number by which it is looked up, whose bits are spread, and a word in its entry by which a lookup knows another key with that
// number.
struct Identity {
    uint64_t index;
    uint64_t check;
};

// The index takes a key's shard from the bits behind these: a map has it mix none.
inline constexpr int bits_before_shard = 48;
// A number whose shard is this one, modulo how many there are.
inline uint64_t key_of_shard(uint64_t shard) noexcept { return shard << bits_before_shard; }

inline bool is_same(const Identity &one, const Identity &other) noexcept { return one.index == other.index && one.check == other.check; }

// Whether a hash gives both words in one call, or one for each seed.
template <class Hash, class Key> inline constexpr bool gives_pair = std::is_invocable_r_v<HashPair, const Hash &, Key, const HashSecret &>;
template <class Hash, class Key> inline constexpr bool takes_seed = std::is_invocable_r_v<uint64_t, const Hash &, Key, uint64_t>;
template <class Hash, class Key> inline constexpr bool hashes = gives_pair<Hash, Key> || takes_seed<Hash, Key>;

// Whether a hash is spread over all its bits, as SipHash is. One of the user's may be spread badly, so its first word is mixed.
template <class Hash> inline constexpr bool is_spread = false;
template <class Key> inline constexpr bool is_spread<SipHash<Key>> = true;

// The finalizer of MurmurHash3, by Austin Appleby: different words stay different.
inline uint64_t mixed(uint64_t word) noexcept {
    word = (word ^ word >> 33) * 0xff51afd7ed558ccd;
    word = (word ^ word >> 33) * 0xc4ceb9fe1a85ec53;
    return word ^ word >> 33;
}

// Whether a map takes a key for its own check word: if its bytes are all of it, fill a word at most, and no hash of the user's comes between.
template <class Key, class Hash>
inline constexpr bool is_own_word = std::is_same_v<Hash, SipHash<std::decay_t<Key>>> && sizeof(std::decay_t<Key>) <= sizeof(uint64_t);

// How a call takes a key. A string that the hash takes as a view is never copied.
template <class Key, class Hash>
using Taken = std::conditional_t<is_string<Key> && hashes<Hash, std::string_view>, std::string_view, const Key &>;

// What a map knows a key by: the two words of one hash, or two hashes with different seeds, or a hash of 64 bits and the key itself.
template <class Key, class Hash> class Identities {
  public:
    static constexpr bool never_throws = gives_pair<Hash, Key> ? std::is_nothrow_invocable_v<const Hash &, Key, const HashSecret &>
                                                               : std::is_nothrow_invocable_v<const Hash &, Key, uint64_t>;

    explicit Identities(Hash &&hash) : hash_(std::move(hash)) {}

    // Draws the secret. Returns whether the kernel gave it. It gives up to 256 bytes at once.
    [[nodiscard]] bool draw() noexcept { return getrandom(&secret_, sizeof secret_, 0) == static_cast<ssize_t>(sizeof secret_); }

    Identity of(Key key) const noexcept(never_throws) {
        if constexpr (is_own_word<Key, Hash>) {
            uint64_t own = 0;
            std::memcpy(&own, std::addressof(key), sizeof key);
            return {sip_hash_few<1, 3, sizeof key>(own, secret_), own};
        } else {
            const HashPair pair = pair_of(key);
            return {is_spread<Hash> ? pair.first : mixed(pair.first), pair.second};
        }
    }

  private:
    HashPair pair_of(Key key) const noexcept(never_throws) {
        if constexpr (gives_pair<Hash, Key>) {
            return hash_(key, secret_);
        } else {
            return {hash_(key, secret_.first), hash_(key, secret_.second)};
        }
    }

    Hash hash_;
    HashSecret secret_{};
};

} // namespace inside

} // namespace cefrodil

#endif
