// What functions compute for maps, for cefrodil_map.hpp: a value, or none if they decline.
#ifndef CEFRODIL_INSIDE_COMPUTED_HPP
#define CEFRODIL_INSIDE_COMPUTED_HPP

#include "handle.hpp"
#include <optional>
#include <type_traits>
#include <utility>

namespace cefrodil {

// The answer of find_or_compute. `value` is a V. If the function returns an optional, so is `value`: it is empty if the function declined. If the status
// is not ok, it says why the value was not put.
template <class V> struct Computed {
    Status status;
    V value;
    bool computed; // by this call
};

namespace inside {

// Whether a function may decline to make a V of this, and how it returns one.
template <class V, class Function, class... Given>
inline constexpr bool may_decline = std::is_same_v<std::invoke_result_t<Function &, Given...>, std::optional<V>>;
template <class V, class Function, class... Given> using Made = std::conditional_t<may_decline<V, Function, Given...>, std::optional<V>, V>;
template <class Function, class V> Computed<Made<V, Function>> made_by(Computed<std::optional<V>> &&made) {
    if constexpr (may_decline<V, Function>) {
        return std::move(made);
    } else {
        return {made.status, std::move(*made.value), made.computed};
    }
}

} // namespace inside

} // namespace cefrodil

#endif
