// A memoizer that several threads share: a function is computed once for each argument that the cache still holds. A thread that
// computes a result tries once to keep it. If another thread has the turn, the result isn't kept.
#include "cefrodil.hpp"
#include <cstdio>
#include <thread>

constexpr int threads = 4, shards = 4;
constexpr uint64_t numbers = 10000, items = 8000;

// A thread's access to the results. The function gets an argument, and the memo for its own calls.
template <class Function> class Memo {
  public:
    Memo(cefrodil::Handle<1> known, Function function) : known_(std::move(known)), function_(function) {}

    uint64_t operator()(uint64_t argument) {
        if (const auto found = known_.get(argument).value) {
            return (*found)[0];
        }
        const uint64_t result = function_(argument, *this);
        computed_++;
        (void)known_.try_put(argument, {result}); // a result that isn't kept is computed again
        return result;
    }

    uint64_t computed() const { return computed_; }

  private:
    cefrodil::Handle<1> known_;
    Function function_;
    uint64_t computed_ = 0;
};

constexpr uint64_t next(uint64_t number) { return number % 2 == 0 ? number / 2 : 3 * number + 1; }

// How many steps lead from the number to 1, if an even number is halved and an odd one becomes 3n + 1.
struct Steps {
    uint64_t operator()(uint64_t number, Memo<Steps> &steps) const { return number == 1 ? 0 : 1 + steps(next(number)); }
};

// The sum of all steps, without a memory.
static uint64_t plain_sum() {
    uint64_t sum = 0;
    for (uint64_t first = 1; first <= numbers; first++) {
        for (uint64_t number = first; number != 1; number = next(number)) {
            sum++;
        }
    }
    return sum;
}

int main() {
    std::vector<cefrodil::Handle<1>> handles;
    const auto shape = cefrodil::shape_for_items(items, shards);
    if (!shape || cefrodil::open(*shape, shards, threads, handles) != cefrodil::Status::ok) {
        return 1;
    }
    std::array<uint64_t, threads> sums{}, computed{};
    std::vector<std::thread> running;
    for (size_t i = 0; i < threads; i++) {
        running.emplace_back([i, &sums, &computed, steps = Memo<Steps>(std::move(handles[i]), Steps())]() mutable {
            for (uint64_t number = 1; number <= numbers; number++) {
                sums[i] += steps(number);
            }
            computed[i] = steps.computed();
        });
    }
    const uint64_t expected = plain_sum();
    uint64_t all = 0, wrong = 0;
    for (size_t i = 0; i < threads; i++) {
        running[i].join();
        wrong += sums[i] != expected;
        all += computed[i];
    }
    std::printf("%llu of %llu steps were computed\n", static_cast<unsigned long long>(all), static_cast<unsigned long long>(threads * expected));
    return wrong != 0 || all >= threads * expected;
}
