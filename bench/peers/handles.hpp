// The handles of a cache, which are lent to the threads of a bench.
#ifndef HANDLES_HPP
#define HANDLES_HPP

#include "cefrodil.h"
#include "harness.hpp"
#include <cstdlib>
#include <mutex>

template <int COUNT> struct Handles {
    cefrodil_handle handles[COUNT] = {};
    int left = COUNT; // those that are lent come before the others
    std::mutex lending;
    static thread_local cefrodil_handle mine;

    ~Handles() {
        for (auto &handle : handles) cefrodil_close(&handle);
    }

    // A handle moves by a copy, and its old place is zeroed.
    void enter() {
        std::lock_guard<std::mutex> lent(lending);
        if (left == 0) abort();
        mine = handles[--left];
        handles[left] = CEFRODIL_EMPTY;
    }

    size_t get_many(const uint64_t *keys, Value *values, size_t many) {
        cefrodil_answer answers[MOST];
        if (cefrodil_get_many(&mine, keys, many, values[0].data(), 4 * many, answers, many) != CEFRODIL_OK) abort();
        size_t hits = 0;
        for (size_t n = 0; n < many; n++) hits += answers[n].status == CEFRODIL_OK;
        return hits;
    }

    void tick() {}

    void leave() {
        std::lock_guard<std::mutex> lent(lending);
        handles[left++] = mine;
        mine = CEFRODIL_EMPTY;
    }
};

template <int COUNT> thread_local cefrodil_handle Handles<COUNT>::mine = CEFRODIL_EMPTY;

#endif
