// A cache beside a store that several threads change. A thread that misses a key reads the store, which takes a while, and sends the value to
// the one thread that writes. Meanwhile another thread may have changed the store: then the value is old, and the Filler refuses it.
#include "cefrodil_filler.hpp"
#include <chrono>
#include <condition_variable>
#include <cstdio>
#include <mutex>
#include <optional>
#include <thread>

constexpr uint64_t keys = 50;
constexpr int threads = 3, rounds = 5000;

// Stands for a database.
static std::array<std::atomic<uint64_t>, keys> store;

// What a thread asks of the one that writes: to fill a key with what it read, or to remove a key that it changed.
struct Request {
    uint64_t key;
    std::optional<std::pair<cefrodil::Ticket, uint64_t>> read;
};

class Queue {
  public:
    void send(const Request &request) {
        const std::lock_guard<std::mutex> guard(lock_);
        waiting_.push_back(request);
        changed_.notify_one();
    }
    void leave() {
        const std::lock_guard<std::mutex> guard(lock_);
        senders_--;
        changed_.notify_one();
    }
    // All that wait, or none if every sender has left.
    std::vector<Request> take() {
        std::unique_lock<std::mutex> guard(lock_);
        changed_.wait(guard, [this] { return !waiting_.empty() || senders_ == 0; });
        return std::exchange(waiting_, {});
    }

  private:
    std::mutex lock_;
    std::condition_variable changed_;
    std::vector<Request> waiting_;
    int senders_ = threads;
};

static void serve(cefrodil::Handle<1> &handle, const cefrodil::Tickets &tickets, Queue &queue) {
    for (int round = 0; round < rounds; round++) {
        const uint64_t key = static_cast<uint64_t>(round) * 7 % keys;
        if (round % 9 == 0) {
            store[key]++; // first the store, then the cache
            queue.send({key, std::nullopt});
        } else if (!handle.get(key).value) {
            const cefrodil::Ticket ticket = tickets.take(); // before the store is read
            const uint64_t value = store[key];
            std::this_thread::sleep_for(std::chrono::microseconds(20));
            queue.send({key, std::pair(ticket, value)});
        }
    }
    queue.leave();
}

int main() {
    std::vector<cefrodil::Handle<1>> handles;
    cefrodil::Writing<1> writing;
    const auto shape = cefrodil::shape_for_items(2 * keys);
    if (!shape || cefrodil::open(*shape, 1, threads + 1, handles) != cefrodil::Status::ok ||
        writing.own(std::move(handles.back())) != cefrodil::Status::ok) {
        return 1;
    }
    handles.pop_back();
    cefrodil::Filler<1> filler(std::move(writing), 1024);
    Queue queue;
    std::vector<std::thread> running;
    for (auto &handle : handles) {
        running.emplace_back([&handle, &queue, tickets = filler.tickets()] { serve(handle, tickets, queue); });
    }
    long refused = 0, old = 0;
    for (auto batch = queue.take(); !batch.empty(); batch = queue.take()) {
        for (const auto &[key, read] : batch) {
            const auto status = read ? filler.fill(key, read->first, {read->second}).status : filler.remove(key).status;
            refused += status == cefrodil::Status::stale;
        }
    }
    for (auto &thread : running) {
        thread.join();
    }
    for (uint64_t key = 0; key < keys; key++) {
        const auto kept = filler.writing().get(key).value;
        old += kept && (*kept)[0] != store[key];
    }
    std::printf("%ld old values were refused, and %ld are in the cache\n", refused, old);
    return old != 0;
}
