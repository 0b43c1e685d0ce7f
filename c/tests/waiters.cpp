// Of three callers that want one key one computes, and the others wait for it: each of them gets the value.
#include "cefrodil_object_map.hpp"
#include "must.h"
#include <algorithm>
#include <atomic>
#include <chrono>
#include <thread>
#include <unistd.h>
#include <vector>

using cefrodil::object_map;
using cefrodil::Status;

// `call` asks a map for a key by a function that computes the value 7, and says whether it got that.
template <class Map, class Call> static void one_computes(Call call) {
    Map map;
    MUST(map.open({100}) == Status::ok);
    std::atomic<int> begun{0}, computed{0}, found{0};
    const auto compute = [&] {
        computed++;
        while (begun != 3) {
            std::this_thread::yield();
        }
        std::this_thread::sleep_for(std::chrono::milliseconds(100));
        return 7;
    };
    const auto want = [&] {
        begun++;
        found += call(map, compute);
    };
    std::vector<std::thread> threads;
    for (int n = 0; n < 3; n++) {
        threads.emplace_back(want);
    }
    std::for_each(threads.begin(), threads.end(), [](std::thread &thread) { thread.join(); });
    MUST(found == 3 && computed == 1);
}

int main() {
    // A caller that nobody wakes waits for ever.
    alarm(30);
    const auto by_value = [](auto &map, const auto &compute) { return map.find_or_compute(1, compute).value == 7; };
    const auto by_pin = [](auto &map, const auto &compute) { return *map.pin_or_compute(1, compute).value == 7; };
    one_computes<cefrodil::map<int, int>>(by_value);
    one_computes<object_map<int, int>>(by_value);
    one_computes<object_map<int, int>>(by_pin);
    return outcome("waiters");
}
