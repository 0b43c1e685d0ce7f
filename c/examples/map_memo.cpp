// A memoizer for any number of threads: of those that ask for the same number at once, one computes, and the others wait for its result.
#include "cefrodil_map.hpp"
#include <atomic>
#include <cstdint>
#include <cstdio>
#include <thread>

// How many steps lead from a number to 1, if an even one is halved and an odd one becomes 3n + 1.
static uint32_t steps(uint64_t number) {
    return number == 1 ? 0 : 1 + steps(number % 2 == 0 ? number / 2 : 3 * number + 1);
}

int main() {
    constexpr uint64_t numbers = 5000;
    cefrodil::map<uint64_t, uint32_t> known;
    const bool opened = known.open({2 * numbers}) == cefrodil::Status::ok;
    std::atomic<uint64_t> computed{0}, wrong{0};
    const auto ask = [&] {
        for (uint64_t number = 1; number <= numbers; number++) {
            const auto answer = known.find_or_compute(number, [&] { return steps(number); });
            computed += answer.computed;
            wrong += answer.value != steps(number);
        }
    };
    std::thread one(ask), other(ask);
    one.join();
    other.join();
    std::printf("%d of %d results were computed\n", int(computed), int(2 * numbers));
    return !(opened && wrong == 0 && computed == numbers && known.erase(27) == cefrodil::Status::ok && !known.contains(27));
}
