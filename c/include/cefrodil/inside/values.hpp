// Types of a program as values, for cefrodil.hpp.
#ifndef CEFRODIL_INSIDE_VALUES_HPP
#define CEFRODIL_INSIDE_VALUES_HPP

#include <array>
#include <cstddef>
#include <cstdint>
#include <cstring>
#include <type_traits>

namespace cefrodil {

// How many words a type takes as a value.
template <class Type> inline constexpr size_t words_of = (sizeof(Type) + sizeof(uint64_t) - 1) / sizeof(uint64_t);

// Whether all bytes of a type are part of its value, so that no padding is copied: what padding holds is not known, and may be of another
// object. A `float` and a `double` have none, nor do arrays of them. A compiler can't tell that of a struct with a float, so specialize this
// for one that has no padding:
//     template <> inline constexpr bool cefrodil::has_no_padding<Account> = true;
// If a struct has padding, make it a member, and give it a value.
template <class Type>
inline constexpr bool has_no_padding =
    std::has_unique_object_representations_v<Type> || std::is_same_v<std::remove_cv_t<Type>, float> || std::is_same_v<std::remove_cv_t<Type>, double>;
template <class Type, size_t Count> inline constexpr bool has_no_padding<Type[Count]> = has_no_padding<Type>;
template <class Type, size_t Count> inline constexpr bool has_no_padding<std::array<Type, Count>> = Count != 0 && has_no_padding<Type>;

// Whether a type can be a value: up to 64 bytes, all part of its value, that can be copied as they are, into an object that needs no
// arguments.
template <class Type>
inline constexpr bool is_value =
    std::is_trivially_copyable_v<Type> && std::is_default_constructible_v<Type> && words_of<Type> <= 8 && has_no_padding<Type>;

namespace inside {

// The bytes of a type as words, and back. Nothing is asked of the type.
template <class Type> std::array<uint64_t, words_of<Type>> words_from(const Type &value) noexcept {
    std::array<uint64_t, words_of<Type>> words{};
    std::memcpy(words.data(), static_cast<const void *>(&value), sizeof value);
    return words;
}
template <class Type> Type object_from(const std::array<uint64_t, words_of<Type>> &words) noexcept {
    Type value;
    std::memcpy(static_cast<void *>(&value), words.data(), sizeof value);
    return value;
}

// Each fault of a value's type has one message. A type that is too large or not trivial gets no second one.
template <class Type> struct Checked {
    static constexpr bool done = true;
    static constexpr bool is_trivial = std::is_trivially_copyable_v<Type>, is_small = words_of<Type> <= 8;
    static_assert(is_trivial, "a value is trivially copyable");
    static_assert(!is_trivial || is_small, "a value has up to 64 bytes");
    static_assert(!is_trivial || !is_small || has_no_padding<Type>,
                  "a value has no padding; specialize has_no_padding for a struct with a float and no padding");
    static_assert(!is_trivial || !is_small || std::is_default_constructible_v<Type>, "a value is default-constructible");
};

} // namespace inside

// The bytes of such a type as the words of a value, and back. Bytes after the type are 0. Floats are copied bit by bit: 0.0 and -0.0 are
// different words.
template <class Type> std::array<uint64_t, words_of<Type>> to_words(const Type &value) noexcept {
    static_assert(inside::Checked<Type>::done);
    return inside::words_from(value);
}
template <class Type> Type from_words(const std::array<uint64_t, words_of<Type>> &words) noexcept {
    static_assert(inside::Checked<Type>::done);
    return inside::object_from<Type>(words);
}

} // namespace cefrodil

#endif
