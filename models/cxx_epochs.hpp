// When an object of a map of objects is freed: the epochs of c/include/cefrodil/inside/epochs.hpp, the header's own code, with atomics and locks of Relacy.
//
// One thread removes two objects one after the other and frees what may be freed. Another thread gets a place, and looks objects up. One without a
// place looks one up, and then frees what may be freed of the first thread's. No object is used after it is freed, and each use comes before the free in
// the order of the memory model.
//
// The index is one entry: a lookup is an acquire load, a removal acquires and releases. A step of the header that is sequentially consistent, and so
// a locked instruction, is a weaker one here, with a fence after it where a schedule needs that.
#ifndef CXX_EPOCHS_HPP
#define CXX_EPOCHS_HPP

#include "explored.hpp"

struct CxxEpochs : rl::test_suite<CxxEpochs, 3> {
    static constexpr unsigned interruptions = 2;
    static constexpr std::array<std::string_view, 8> steps{"fence of an announcement",     "fence of a retirement",      "acquire of the epoch",
                                                           "fence of a new epoch",         "acquire of an announcement", "release of the end of a pin",
                                                           "lock of pins without a place", "removal before the retirement"};

    // The header's order. One that is sequentially consistent is this one here, and has a fence.
    static std::memory_order weaker(std::memory_order order, std::memory_order own) { return order == std::memory_order_seq_cst ? own : order; }
    static void fence_of(std::string_view step, std::memory_order order) {
        if (order == std::memory_order_seq_cst) {
            explored::fence_unless(step);
        }
    }

    // Whether a thread reads announcements: since it began an epoch, until its next call. Else it reads the epoch, and thread 0 does so to retire.
    static inline std::array<bool, 3> reads_pins{};

    struct Parts {
        template <class T> struct Atomic : explored::Atomic<T> {
            using Own = explored::Atomic<T>;
            using Own::Own;
            T load(std::memory_order order) const {
                const bool is_announced = reads_pins[explored::this_thread()];
                if (explored::this_thread() == 0 && !is_announced) {
                    fence_of("fence of a retirement", order);
                    return Own::load(weaker(order, std::memory_order_acquire));
                }
                const std::string_view step = is_announced ? "acquire of an announcement" : "acquire of the epoch";
                return Own::load(explored::unless(step, weaker(order, std::memory_order_acquire)));
            }
            void store(T value, std::memory_order order) {
                const bool is_end = order != std::memory_order_seq_cst;
                Own::store(value, is_end ? explored::unless("release of the end of a pin", order) : std::memory_order_release);
                fence_of("fence of an announcement", order);
            }
            T fetch_add(T more, std::memory_order order) {
                reads_pins[explored::this_thread()] = true;
                const T before = Own::fetch_add(more, weaker(order, std::memory_order_relaxed));
                fence_of("fence of a new epoch", order);
                return before;
            }
        };
        using Mutex = explored::Mutex;
    };
    using Epochs = cefrodil::inside::EpochsOf<Parts>;

    struct Thing : cefrodil::inside::Retired {
        explored::Plain<int> lives{1};
    };
    static constexpr size_t no_thing = 2;

    std::array<Thing, 2> things{};
    explored::Atomic<size_t> entry{0};
    Epochs epochs{};
    Epochs::Place retiring{}, looking{};

    void before() { epochs.join(retiring); }
    void look_up(Epochs::Place *place) {
        std::optional<explored::Mutex::Off> off;
        if (place == nullptr) {
            off.emplace("lock of pins without a place");
        }
        reads_pins[explored::this_thread()] = false;
        const Epochs::Pinned pinned(epochs, place);
        const size_t word = entry.load(std::memory_order_acquire);
        RL_ASSERT(word == no_thing || things[word].lives.get() == 1);
    }
    void free(cefrodil::inside::Retired *first) {
        for (; first != nullptr; first = first->next) {
            static_cast<Thing *>(first)->lives.set(0);
        }
    }
    void retire(size_t word) {
        reads_pins[0] = false;
        free(epochs.retire(things[word], retiring));
        free(epochs.free_now());
    }
    void remove() {
        const bool is_early = explored::without("removal before the retirement");
        is_early ? retire(0) : void();
        entry.exchange(1, std::memory_order_acq_rel);
        is_early ? void() : retire(0);
        entry.exchange(no_thing, std::memory_order_acq_rel);
        retire(1);
    }

    void thread(unsigned index) {
        if (index == 0) {
            remove();
        } else if (index == 1) {
            epochs.join(looking);
            look_up(&looking);
            look_up(&looking);
        } else {
            look_up(nullptr);
            free(epochs.free_now());
        }
    }
};

#endif
