// A cache of host names for a server of several threads, each with a handle. If a thread doesn't find a name, it resolves the name the
// slow way, and queues the answer for the one thread that writes. The key is a hash of the name. The value keeps a second hash, which
// tells apart names of one key. If strangers choose the names, take a keyed hash.
#include "cefrodil.hpp"
#include <condition_variable>
#include <cstdio>
#include <mutex>
#include <string>
#include <string_view>
#include <thread>

constexpr int threads = 3, names = 500, lookups = 50000;

using Value = std::array<uint64_t, 2>;

constexpr uint64_t hash(std::string_view name, uint64_t basis) {
    for (const char letter : name) {
        basis = (basis ^ static_cast<unsigned char>(letter)) * 1099511628211u;
    }
    return basis;
}

// The slow way: asks a name server.
static uint32_t resolve(const std::string &name) { return 0x0A000000u + static_cast<uint32_t>(std::stoul(name.substr(4))); }

// Answers on their way to the thread that writes.
class Queue {
  public:
    void offer(uint64_t key, const Value &value) {
        const std::lock_guard<std::mutex> guard(lock_);
        waiting_.emplace_back(key, value);
        changed_.notify_one();
    }
    // All that wait, or none if every sender has left.
    std::vector<std::pair<uint64_t, Value>> take() {
        std::unique_lock<std::mutex> guard(lock_);
        changed_.wait(guard, [this] { return !waiting_.empty() || senders_ == 0; });
        return std::exchange(waiting_, {});
    }
    void leave() {
        const std::lock_guard<std::mutex> guard(lock_);
        senders_--;
        changed_.notify_one();
    }

  private:
    std::mutex lock_;
    std::condition_variable changed_;
    std::vector<std::pair<uint64_t, Value>> waiting_;
    int senders_ = threads;
};

// What a thread of the server has, and what it counted.
struct Server {
    cefrodil::Handle<2> handle;
    long hits = 0, wrong = 0;

    uint32_t look_up(const std::string &name, Queue &queue) {
        const uint64_t key = hash(name, 14695981039346656037u), check = hash(name, 1);
        const auto found = handle.get(key).value;
        if (found && (*found)[0] == check) {
            hits++;
            return static_cast<uint32_t>((*found)[1]);
        }
        // The key is absent, or another name has it, or the lookup was busy. If addresses change, take a ticket first, as store.cpp does.
        const uint32_t address = resolve(name);
        queue.offer(key, {check, address});
        return address;
    }

    // Makes `count` lookups.
    void ask(int count, Queue &queue) {
        for (int i = 0; i < count; i++) {
            const std::string name = "host" + std::to_string(i * 7 % names);
            wrong += look_up(name, queue) != resolve(name);
        }
    }

    void serve(Queue &queue) {
        ask(lookups, queue);
        queue.leave();
    }
};

int main() {
    std::vector<cefrodil::Handle<2>> handles;
    cefrodil::Writing<2> writing;
    const auto shape = cefrodil::shape_for_items(2 * names);
    if (!shape || cefrodil::open(*shape, 1, threads + 1, handles) != cefrodil::Status::ok ||
        writing.own(std::move(handles.back())) != cefrodil::Status::ok) {
        return 1;
    }
    handles.pop_back();
    Queue queue;
    std::vector<Server> servers;
    for (auto &handle : handles) {
        servers.push_back(Server{std::move(handle)});
    }
    std::vector<std::thread> running;
    for (Server &server : servers) {
        running.emplace_back([&server, &queue] { server.serve(queue); });
    }
    for (auto batch = queue.take(); !batch.empty(); batch = queue.take()) {
        for (const auto &[key, value] : batch) {
            writing.put(key, value); // if it fails, the name is resolved again later
        }
    }
    long hits = 0, wrong = 0;
    for (size_t i = 0; i < threads; i++) {
        running[i].join();
        hits += servers[i].hits;
        wrong += servers[i].wrong;
    }
    servers[0].hits = servers[0].wrong = 0;
    servers[0].ask(names, queue);
    std::printf("the cache had the name %ld times of %d; now it has %ld of %d names\n", hits, threads * lookups, servers[0].hits, names);
    return servers[0].hits == 0 || wrong + servers[0].wrong != 0;
}
