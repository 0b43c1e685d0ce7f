// A rate limiter for a service of several threads: each client may make `limit` requests in a window of time. The cache holds a window
// and a count for each client. Threads write by turns.
#include "cefrodil.hpp"
#include <atomic>
#include <cstdio>
#include <stdexcept>
#include <thread>

using cefrodil::Handle;
using cefrodil::Status;

constexpr int threads = 4, shards = 4;
constexpr uint64_t clients = 200, windows = 3, requests = 4, limit = 5;

// A thread's part of the limiter.
class Limiter {
  public:
    explicit Limiter(Handle<2> handle) : handle_(std::move(handle)) {}

    // A client begins with no requests.
    void greet(uint64_t client) {
        if (const Status status = handle_.try_put(client, {0, 0}).status; status != Status::ok) {
            throw std::runtime_error(cefrodil::text(status));
        }
    }

    // Counts one request of the client in this window, unless it has made `limit` of them, or is unknown.
    bool allow(uint64_t client, uint64_t window) {
        for (;; std::this_thread::yield()) {
            const auto found = handle_.get_or_turn(client);
            if (found.status == Status::busy) {
                continue;
            }
            if (!found.value) {
                return false;
            }
            const auto [last, made] = *found.value;
            const uint64_t count = last == window ? made : 0;
            if (count == limit) {
                return false;
            }
            const Status status = handle_.try_put_if(client, found.since, {window, count + 1}).status;
            if (status == Status::ok) {
                return true;
            }
            // Another thread had the turn, or counted a request of the same client.
            if (status != Status::held && status != Status::changed) {
                throw std::runtime_error(cefrodil::text(status));
            }
        }
    }

  private:
    Handle<2> handle_;
};

// How many requests all threads let through in this window. Each client sends `requests` requests to each thread.
static uint64_t serve_all(std::vector<Limiter> &limiters, uint64_t window) {
    std::atomic<uint64_t> allowed{0};
    std::vector<std::thread> running;
    for (Limiter &limiter : limiters) {
        running.emplace_back([&limiter, &allowed, window] {
            for (uint64_t request = 0; request < requests * clients; request++) {
                allowed += limiter.allow(request % clients, window);
            }
        });
    }
    for (std::thread &thread : running) {
        thread.join();
    }
    return allowed;
}

int main() {
    std::vector<Handle<2>> handles;
    const auto shape = cefrodil::shape_for_items(2 * clients, shards);
    if (!shape || cefrodil::open(*shape, shards, threads, handles) != Status::ok) {
        return 1;
    }
    std::vector<Limiter> limiters;
    for (Handle<2> &handle : handles) {
        limiters.emplace_back(std::move(handle));
    }
    for (uint64_t client = 0; client < clients; client++) {
        limiters[0].greet(client);
    }
    uint64_t allowed = 0;
    for (uint64_t window = 1; window <= windows; window++) {
        allowed += serve_all(limiters, window);
    }
    const uint64_t sent = windows * threads * requests * clients;
    std::printf("%llu of %llu requests allowed\n", static_cast<unsigned long long>(allowed), static_cast<unsigned long long>(sent));
    return allowed != windows * limit * clients;
}
