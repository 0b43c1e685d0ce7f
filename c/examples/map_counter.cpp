// A rate limiter: 100 requests a minute for each user, in threads. The map has room for all users: one that is evicted begins anew.
#include "cefrodil_map.hpp"
#include <atomic>
#include <cstdint>
#include <cstdio>
#include <string>
#include <string_view>
#include <thread>

struct Window { uint64_t minute, count; }; // the minute of the last requests, and how many it had
using Windows = cefrodil::map<std::string, Window>;

// Whether the user may go on. A request that can't be counted is refused, and the reason printed: it may last, so nothing is repeated.
static bool allows(Windows &windows, std::string_view user, uint64_t minute) {
    const auto next = [&](const Window &old) { return old.minute < minute ? Window{minute, 1} : Window{old.minute, old.count + 1}; };
    const auto window = windows.update_or_insert(user, {minute, 1}, next);
    return window.value ? window.value->count <= 100 : (std::puts(cefrodil::text(window.status)), false);
}

int main() {
    Windows windows;
    const bool opened = windows.open({1000}) == cefrodil::Status::ok;
    std::atomic<int> allowed{0};
    const auto ask = [&] { for (int n = 0; n < 80; n++) { allowed += allows(windows, "ann", 7); } };
    std::thread one(ask), other(ask);
    one.join();
    other.join();
    std::printf("%d of 160 requests were allowed\n", int(allowed));
    return !(opened && allowed == 100 && !allows(windows, "ann", 7) && allows(windows, "ann", 8) && allows(windows, "bob", 7));
}
