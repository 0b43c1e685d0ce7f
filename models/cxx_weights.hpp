// The bound of a map of objects: c/include/cefrodil/inside/weights.hpp itself, with atomics of Relacy.
//
// One thread adds a weight, and another one lowers the bound. Each compares the two afterwards. One of them sees that the sum is above the bound.
#ifndef CXX_WEIGHTS_HPP
#define CXX_WEIGHTS_HPP

#include "cefrodil/inside/weights.hpp"
#include "explored.hpp"

struct CxxWeights : rl::test_suite<CxxWeights, 2> {
    static constexpr unsigned interruptions = 2;
    static constexpr std::array<std::string_view, 2> steps{"release of the bound", "acquire of a weight"};

    struct Parts {
        template <class T> struct Atomic : explored::Atomic<T> {
            using Own = explored::Atomic<T>;
            using Own::Own;
            T fetch_add(T more, std::memory_order order) {
                const bool is_acquire = order == std::memory_order_acquire;
                return Own::fetch_add(more, is_acquire ? explored::unless("acquire of a weight", order) : explored::unless("release of the bound", order));
            }
        };
    };

    cefrodil::inside::WeightsOf<Parts> weights{100};
    std::array<explored::Plain<bool>, 2> is_over{explored::Plain<bool>(false), explored::Plain<bool>(false)};

    void before() { weights.divide(1); }
    void thread(unsigned index) {
        if (index == 0) {
            weights.add(0, 50);
        } else {
            weights.set_bound(40);
        }
        is_over[index].set(weights.is_over());
    }
    void after() { RL_ASSERT(is_over[0].get() || is_over[1].get()); }
};

#endif
