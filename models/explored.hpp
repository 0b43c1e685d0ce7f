// What the models are made of: atomics, locks and fences of Relacy, in the shape of the standard library's. Relacy runs a model's threads in one
// schedule after the other, and lets a load return older values, as the memory model of C++ allows.
#ifndef EXPLORED_HPP
#define EXPLORED_HPP

#include "cefrodil/inside/entries.hpp"
#include "cefrodil/inside/epochs.hpp"
#include <array>
#include <limits>
#include <optional>
#include <ostream>
#include <string_view>
#include <vector>

#include <relacy/relacy.hpp>
// Its macros would change what follows.
#undef new
#undef delete
#undef malloc
#undef calloc
#undef realloc
#undef free
#undef assert
#undef errno
#undef memory_order_relaxed
#undef memory_order_consume
#undef memory_order_acquire
#undef memory_order_release
#undef memory_order_acq_rel
#undef memory_order_seq_cst

namespace explored {

// The step or the order that a run leaves out. A model asks for each by its name.
inline std::string_view left_out;
inline bool was_asked;

inline bool without(std::string_view name) {
    was_asked = was_asked || name == left_out;
    return name == left_out;
}

inline unsigned this_thread() { return static_cast<unsigned>(rl::ctx().threadx_->index_); }

inline rl::memory_order order_of(std::memory_order order) {
    switch (order) {
    case std::memory_order_relaxed: return rl::mo_relaxed;
    case std::memory_order_acquire: return rl::mo_acquire;
    case std::memory_order_release: return rl::mo_release;
    case std::memory_order_acq_rel: return rl::mo_acq_rel;
    default: return rl::mo_seq_cst;
    }
}

template <class T> class Atomic {
  public:
    explicit Atomic(T value) : own_(value) {}
    T load(std::memory_order order) const { return own_.load(order_of(order), $); }
    void store(T value, std::memory_order order) { own_.store(value, order_of(order), $); }
    T exchange(T value, std::memory_order order) { return own_.exchange(value, order_of(order), $); }
    T fetch_add(T more, std::memory_order order) { return own_.fetch_add(more, order_of(order), $); }
    T fetch_sub(T less, std::memory_order order) { return own_.fetch_sub(less, order_of(order), $); }
    bool compare_exchange(T expected, T value, std::memory_order order) { return own_.compare_exchange_strong(expected, value, order_of(order), $); }

  private:
    rl::atomic<T> own_;
};

class Mutex {
  public:
    void lock() {
        if (!is_off()) {
            own_.lock($);
        }
    }
    bool try_lock() { return is_off() || own_.try_lock($); }
    void unlock() {
        if (!is_off()) {
            own_.unlock($);
        }
    }

    // While it lives, this thread takes no lock, if the run leaves that step out.
    class Off {
      public:
        explicit Off(std::string_view step) : thread_(this_thread()) { off()[thread_] = without(step); }
        ~Off() { off()[thread_] = false; }
        Off(const Off &) = delete;
        Off &operator=(const Off &) = delete;

      private:
        const unsigned thread_;
    };

  private:
    friend class Condition;
    static std::array<bool, 8> &off() {
        static std::array<bool, 8> all{};
        return all;
    }
    static bool is_off() { return off()[this_thread()]; }

    rl::mutex own_{};
};

class Condition {
  public:
    template <class Over> void wait(std::unique_lock<Mutex> &guard, Over is_over) {
        while (!is_over()) {
            own_.wait(guard.mutex()->own_, $);
        }
    }
    void notify_all() { own_.notify_all($); }

  private:
    rl::condition_variable own_{};
};

inline void fence() { rl::atomic_thread_fence(rl::mo_seq_cst, $); }

// The order and the fence, unless the run leaves them out.
inline std::memory_order unless(std::string_view step, std::memory_order order) { return without(step) ? std::memory_order_relaxed : order; }
inline void fence_unless(std::string_view step) {
    if (!without(step)) {
        fence();
    }
}

// What all maps of a process share. Each run has its own.
struct Process {
    Process() { of_run = this; }
    Mutex lock{};
    cefrodil::inside::Wait *first_wait = nullptr;
    static inline Process *of_run;
};

// Parts of flights.
struct Flying {
    template <class T> using Atomic = explored::Atomic<T>;
    using Mutex = explored::Mutex;
    using Condition = explored::Condition;
    static unsigned this_thread() { return explored::this_thread(); }
    template <class IsSo> static void wait(Condition &condition, std::unique_lock<Mutex> &guard, cefrodil::inside::Until, IsSo is_so) {
        condition.wait(guard, is_so);
    }
    static void fence() { explored::fence(); }
    static Process &of_process() { return *Process::of_run; }
};

// Parts of a count of generations.
struct Counting {
    template <class T> struct Atomic : explored::Atomic<T> {
        using Own = explored::Atomic<T>;
        using Own::Own;
        T load(std::memory_order order) const { return Own::load(unless("acquire of the generation", order)); }
        T fetch_add(T more, std::memory_order order) { return Own::fetch_add(more, unless("release of the generation", order)); }
    };
};

// Memory without atomic steps: two accesses that no order keeps apart are an error, unless both are reads.
template <class T> class Plain {
  public:
    explicit Plain(T value) : own_(value) {}
    T get() const { return own_($).load(); }
    void set(T value) { own_($).store(value); }

  private:
    rl::var<T> own_;
};

// What is wrong in one of the schedules of Relacy's scheduler, or nothing.
template <class Model, class Scheduler> std::string_view found(rl::test_params params) {
    std::ostream dropped(nullptr);
    rl::ostringstream state;
    params.output_stream = params.progress_stream = &dropped;
    const rl::test_result_e result = rl::run_test<Model, Scheduler>(params, state, false);
    return result == rl::test_result_success ? "" : rl::test_result_str(result);
}

// Tries all schedules in which threads that could go on are interrupted so many times at most, with each value that a load may return in them.
template <class Model> std::string_view found_in_all(unsigned interruptions) {
    rl::test_params params;
    params.iteration_count = std::numeric_limits<rl::iteration_t>::max();
    params.context_bound = interruptions;
    return found<Model, rl::context_bound_scheduler<Model::params::thread_count>>(params);
}

// Tries so many schedules with any interruptions, drawn by Relacy's own numbers, which are the same in each run.
template <class Model> std::string_view found_in_some(rl::iteration_t schedules) {
    rl::test_params params;
    params.iteration_count = schedules;
    return found<Model, rl::random_scheduler<Model::params::thread_count>>(params);
}

} // namespace explored

#endif
