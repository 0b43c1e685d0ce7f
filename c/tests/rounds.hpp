// Threads that make calls in rounds, for linear.cpp. Signals stop them in the middle.
#ifndef ROUNDS_HPP
#define ROUNDS_HPP

#include "must.h"
#include <algorithm>
#include <atomic>
#include <csignal>
#include <cstdint>
#include <functional>
#include <pthread.h>
#include <sched.h>
#include <thread>
#include <vector>

// Drawn numbers: the same in each run.
struct Random {
    uint64_t state;
    uint64_t below(uint64_t bound) {
        state = state * 6364136223846793005 + 1442695040888963407;
        return (state >> 33) % bound;
    }
};

// Threads that wait for a round, each with a signal now and then.
class Stopped {
  public:
    explicit Stopped(uint64_t threads) {
        struct sigaction action = {};
        action.sa_handler = yield_in_signal;
        MUST(sigaction(SIGUSR1, &action, nullptr) == 0);
        for (uint64_t n = 0; n < threads; n++) {
            running_.emplace_back([this, n] { work(n); });
        }
    }
    ~Stopped() {
        job_ = nullptr;
        round_++;
        std::for_each(running_.begin(), running_.end(), [](std::thread &thread) { thread.join(); });
    }
    Stopped(const Stopped &) = delete;
    Stopped &operator=(const Stopped &) = delete;

    // Each thread does this once, with its number.
    void run(const std::function<void(uint64_t)> &job, Random &random) {
        job_ = job;
        left_ = running_.size();
        round_++;
        for (uint64_t signals = random.below(most_signals); left_ != 0; sched_yield()) {
            if (signals != 0) {
                signals--;
                pthread_kill(running_[random.below(running_.size())].native_handle(), SIGUSR1);
            }
        }
    }

  private:
    static constexpr uint64_t most_signals = 12;

    static void yield_in_signal(int) {
        for (int n = 0; n < 3; n++) {
            sched_yield();
        }
    }
    void work(uint64_t number) {
        for (uint64_t known = 0;; known++) {
            while (round_ == known) {
                sched_yield();
            }
            if (!job_) {
                return;
            }
            job_(number);
            left_--;
        }
    }

    std::atomic<uint64_t> round_{0}, left_{0};
    std::function<void(uint64_t)> job_{};
    std::vector<std::thread> running_{};
};

#endif
