// A server's metrics: threads look names up, and another one prints what became of it for Prometheus, as a page /metrics would.
#include "cefrodil.hpp"
#include <cstdio>
#include <thread>

constexpr int threads = 3;
constexpr uint64_t lookups = 10000, names = 500;

static void serve(cefrodil::Handle<1> &handle) {
    for (uint64_t key = 0; key < lookups; key++) {
        (void)handle.get(key % (2 * names));
    }
}

// What a scrape of the page returns. It needs no handle of the cache.
static std::string metrics(const cefrodil::Meter &meter) { return cefrodil::prometheus({{"names", meter.counts()}}); }

int main() {
    std::vector<cefrodil::Handle<1>> handles;
    const auto shape = cefrodil::shape_for_items(names);
    if (!shape || cefrodil::open(*shape, 1, threads, handles) != cefrodil::Status::ok) {
        return 1;
    }
    for (uint64_t key = 0; key < names; key++) {
        if (handles[0].try_put(key, {key}).status != cefrodil::Status::ok) {
            return 1;
        }
    }
    const cefrodil::Meter meter = handles[0].meter();
    std::vector<std::thread> running;
    for (auto &handle : handles) {
        running.emplace_back([&handle] { serve(handle); });
    }
    for (auto &thread : running) {
        thread.join();
    }
    std::fputs(metrics(meter).c_str(), stdout);
    const cefrodil::Counts counts = meter.counts();
    return counts.hits != threads * lookups / 2 || counts.misses != threads * lookups / 2;
}
