// Which threads of the process wait for computations of which others, for flights.hpp: so that none waits for itself, through any chain of threads and
// maps.
//
// A thread waits for one flight at a time, and its wait is in a list meanwhile. It is added before the thread waits. The thread that ends the flight takes
// it out before it does anything else, both with the lock of the flight's own list. So:
// - No cycle is missed. If threads waited for each other, all their waits would be in the list. But the last one to be added saw the others.
// - No cycle is seen that isn't there. A wait whose flight has ended is in the list only while the flight's thread ends it. This thread waits for nothing
//   then, and does not ask, so no cycle has that wait.
#ifndef CEFRODIL_INSIDE_WAITS_HPP
#define CEFRODIL_INSIDE_WAITS_HPP

#include <cstdint>
#include <mutex>

namespace cefrodil::inside {

// A thread's wait for a flight of another one, on its stack.
struct Wait {
    uintptr_t waiting, computing; // the threads
    const void *flight;
    bool is_over = false; // with the lock of the flight's list
    Wait *next = nullptr;
};

// `Parts::of_process()` has the list of all waits, and a lock.
template <class Parts> class WaitsOf {
  public:
    // Adds a wait, unless it would never end: then the thread that computes waits for the other one, if through others.
    [[nodiscard]] static bool begin(Wait &wait) noexcept {
        auto &process = Parts::of_process();
        const std::lock_guard guard(process.lock);
        const Wait *chain = &wait;
        while (chain != nullptr && chain->computing != wait.waiting) {
            chain = of(process.first_wait, chain->computing);
        }
        if (chain != nullptr) {
            return false;
        }
        wait.next = process.first_wait;
        process.first_wait = &wait;
        return true;
    }
    // Takes out a wait for a flight that goes on, with the lock of the flight's list.
    static void leave(const Wait &wait) noexcept {
        auto &process = Parts::of_process();
        const std::lock_guard guard(process.lock);
        Wait **link = &process.first_wait;
        while (*link != &wait) {
            link = &(*link)->next;
        }
        *link = wait.next;
    }
    // Ends all waits for a flight.
    static void end(const void *flight) noexcept {
        auto &process = Parts::of_process();
        const std::lock_guard guard(process.lock);
        for (Wait **link = &process.first_wait; *link != nullptr;) {
            Wait &wait = **link;
            if (wait.flight == flight) {
                wait.is_over = true;
                *link = wait.next;
            } else {
                link = &wait.next;
            }
        }
    }

  private:
    static const Wait *of(const Wait *wait, uintptr_t thread) noexcept {
        while (wait != nullptr && wait->waiting != thread) {
            wait = wait->next;
        }
        return wait;
    }
};

} // namespace cefrodil::inside

#endif
