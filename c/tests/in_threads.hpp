// Functions in threads that begin together, for the tests of maps.
#ifndef IN_THREADS_HPP
#define IN_THREADS_HPP

#include <atomic>
#include <cstddef>
#include <cstdint>
#include <thread>
#include <vector>

// With an argument the rounds of the tests are so many times fewer, for valgrind.
inline uint64_t fewer = 1;

// Runs a function in so many threads, which begin together. It gets the thread's number.
template <class Function> static void in_threads(size_t count, Function function) {
    std::atomic<size_t> waiting{count};
    std::vector<std::thread> threads;
    for (size_t i = 0; i < count; i++) {
        threads.emplace_back([&, i] {
            for (waiting--; waiting != 0;) {
                std::this_thread::yield();
            }
            function(i);
        });
    }
    for (std::thread &thread : threads) {
        thread.join();
    }
}

#endif
