// A batch reader: an order's products are looked up in one call. Prices that the cache doesn't have come from the price list, and are
// put for the next order.
#include "cefrodil.hpp"
#include <cstdio>

constexpr uint64_t products = 10000, orders = 5000;
constexpr size_t lines = 32;

using Order = std::array<uint64_t, lines>;

// The price list: the slow way.
constexpr uint64_t listed(uint64_t product) { return product * 37 % 1000 + 1; }

// The cache, whose values are prices.
class Prices {
  public:
    bool open() {
        const auto shape = cefrodil::shape_for_items(products);
        return shape && cefrodil::open(*shape, 1, 1, handles_) == cefrodil::Status::ok;
    }

    // What the order costs, or 0 if the lookup failed.
    uint64_t total(const Order &order) {
        std::array<std::array<uint64_t, 1>, lines> found;
        std::array<cefrodil_answer, lines> answers;
        if (handles_[0].get_many(order.data(), lines, found.data(), answers.data()) != cefrodil::Status::ok) {
            return 0;
        }
        uint64_t sum = 0;
        for (size_t line = 0; line < lines; line++) {
            if (answers[line].status != CEFRODIL_OK) {
                found[line] = {listed(order[line])};
                misses_++;
                (void)handles_[0].try_put(order[line], found[line]); // a price that finds no place is read from the list again
            }
            sum += found[line][0];
        }
        return sum;
    }

    uint64_t misses() const { return misses_; }

  private:
    std::vector<cefrodil::Handle<1>> handles_;
    uint64_t misses_ = 0;
};

int main() {
    Prices prices;
    if (!prices.open()) {
        return 1;
    }
    int wrong = 0;
    for (uint64_t number = 0; number < orders; number++) {
        Order order;
        uint64_t expected = 0;
        for (size_t line = 0; line < lines; line++) {
            order[line] = (number * 97 + line * 311) % products;
            expected += listed(order[line]);
        }
        wrong += prices.total(order) != expected;
    }
    std::printf("%llu of %llu prices came from the list\n", static_cast<unsigned long long>(prices.misses()),
                static_cast<unsigned long long>(orders * lines));
    return wrong != 0 || prices.misses() != products;
}
