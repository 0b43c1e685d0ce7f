// How passes are taken, given back and end: FreePasses of c/include/cefrodil/inside/passes.hpp itself, with atomics and locks of Relacy.
//
// Two threads share one pass, each at its time, and a third one ends the passes when the last call has returned. Nobody has a pass beside another
// thread, or after the end.
#ifndef CXX_PASSES_HPP
#define CXX_PASSES_HPP

#include "explored.hpp"

struct CxxPasses : rl::test_suite<CxxPasses, 3> {
    static constexpr unsigned interruptions = 0;
    static constexpr std::array<std::string_view, 3> steps{"lock of take", "lock of give", "claim of a thread that ends"};

    struct Parts {
        template <class T> using Atomic = explored::Atomic<T>;
        using Mutex = explored::Mutex;
    };

    cefrodil::inside::FreePassesOf<Parts> passes{2};
    explored::Plain<int> slot{0}; // of pass 1: what its thread alone uses
    explored::Mutex lock{};
    explored::Condition called{};
    int calling = 2;

    size_t take() {
        const explored::Mutex::Off off("lock of take");
        return passes.take();
    }
    void give(size_t pass) {
        const explored::Mutex::Off off("lock of give");
        passes.give(pass);
    }
    void call() {
        if (const size_t pass = take(); pass != 0) {
            slot.set(slot.get() + 1);
            give(pass);
            // What Claims keeps from a thread that has given its passes back.
            if (explored::without("claim of a thread that ends")) {
                slot.set(slot.get() + 1);
            }
        }
        const std::lock_guard<explored::Mutex> guard(lock);
        calling--;
        called.notify_all();
    }
    // A map is closed when no call runs.
    void close() {
        std::unique_lock<explored::Mutex> guard(lock);
        called.wait(guard, [&] { return calling == 0; });
        slot.set(0);
        passes.end();
    }

    void thread(unsigned index) { index == 0 ? close() : call(); }
    void after() {
        RL_ASSERT(passes.have_ended() && passes.count() == 1 && passes.take() == 1 && passes.take() == 0);
    }
};

#endif
