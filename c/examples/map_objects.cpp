// Pages of any size behind a cache, for any number of threads. The map's listener says how many bytes are left. A page that a thread shows is not freed
// meanwhile, though another thread may evict it.
#include "cefrodil_object_map.hpp"
#include <atomic>
#include <cstdio>
#include <string>
#include <vector>

struct Page {
    std::string title;
    std::vector<char> body;
};

int main() {
    std::atomic<size_t> bytes{0}, evicted{0};
    cefrodil::object_map<std::string, Page> pages;
    const auto left = [&](const std::string &, const Page &page, cefrodil::Left why) {
        bytes -= page.body.size();
        evicted += why == cefrodil::Left::evicted;
    };
    if (pages.open({100, 4}, left) != cefrodil::Status::ok) {
        return 1;
    }
    size_t last = 0;
    for (size_t n = 0; n < 1000; n++) {
        // A page is counted before it is in the map, since it may be evicted at once.
        bytes += n;
        Page page{"Page " + std::to_string(n), std::vector<char>(n)};
        const bool stored = pages.insert("/page/" + std::to_string(n), std::move(page)).status == cefrodil::Status::ok;
        last = stored ? n : last;
        bytes -= stored ? 0 : n; // it found no place: serve it uncached
    }
    size_t size = 0;
    const auto seen = pages.look("/page/" + std::to_string(last), [&](const Page &page) { size = page.body.size(); });
    std::printf("%zu of 1000 pages are there, and %zu were evicted; the last one has %zu bytes\n", size_t(pages.size()), size_t(evicted), size);
    const bool cleared = pages.clear() == cefrodil::Status::ok;
    return !(seen == cefrodil::Status::ok && size == last && evicted > 500 && cleared && bytes == 0);
}
