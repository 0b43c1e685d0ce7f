// Objects that are counted, for the tests of object maps.
#ifndef TRACKED_HPP
#define TRACKED_HPP

#include <atomic>
#include <cstdint>

// So many of these live. One is no copy of another, and knows whether it lives.
inline std::atomic<long> living{0};

class Tracked {
  public:
    explicit Tracked(uint64_t number) : number_(number) { living++; }
    Tracked(Tracked &&other) noexcept : number_(other.number_) { living++; }
    Tracked &operator=(Tracked &&other) noexcept = default;
    ~Tracked() {
        mark_ = dead;
        living--;
    }
    bool lives() const { return mark_ == alive; }
    uint64_t number() const { return number_; }

  private:
    static constexpr uint64_t alive = 0x600d, dead = 0xdead;
    uint64_t number_;
    volatile uint64_t mark_ = alive;
};

#endif
