// What the headers beside this one share between threads is made of these types. The programs of models/ put others in their
// place, to try one schedule after the other.
#ifndef CEFRODIL_INSIDE_THREADS_HPP
#define CEFRODIL_INSIDE_THREADS_HPP

#include "forks.hpp"
#include <atomic>
#include <chrono>
#include <condition_variable>
#include <cstdint>
#include <mutex>

namespace cefrodil::inside {

// When a call waits no longer. max: it waits for as long as it takes.
using Until = std::chrono::steady_clock::time_point;

struct Threads {
    template <class T> using Atomic = std::atomic<T>;
    using Mutex = std::mutex;
    using Condition = std::condition_variable;
    // Differs for any two threads that live at the same time.
    static uintptr_t this_thread() noexcept {
        static thread_local char place = 0;
        return reinterpret_cast<uintptr_t>(&place);
    }
    // Waits until this is so, or until this time.
    template <class IsSo> static void wait(Condition &condition, std::unique_lock<Mutex> &guard, Until until, IsSo is_so) {
        if (until == Until::max()) {
            condition.wait(guard, is_so);
        } else {
            condition.wait_until(guard, until, is_so);
        }
    }
    // A forked child finds its lock free, and none that waits.
    static Ownings &of_process() noexcept { return Ownings::of_library(); }

#ifdef __SANITIZE_THREAD__
// ThreadSanitizer does not see the fence. Without it no access of the map is a race.
#pragma GCC diagnostic push
#pragma GCC diagnostic ignored "-Wtsan"
#endif
    // Of two threads that call it, the later one sees afterwards what the earlier one wrote before.
    static void fence() noexcept { std::atomic_thread_fence(std::memory_order_seq_cst); }
#ifdef __SANITIZE_THREAD__
#pragma GCC diagnostic pop
#endif
};

} // namespace cefrodil::inside

#endif
