// A process forks while its threads open, write and close. A child finds each map closed, and may open its own. It ends by exit, which destroys static
// objects: none hangs, and none has freed anything of its parent's.
#include "cefrodil_object_map.hpp"
#include "must.h"
#include <algorithm>
#include <atomic>
#include <cstdlib>
#include <sys/wait.h>
#include <thread>
#include <unistd.h>

using Map = cefrodil::map<uint64_t, uint64_t>;
using cefrodil::Status;

enum { CHILDREN = 200, KEYS = 1000 };

static Map map, full;
static cefrodil::object_map<uint64_t, std::string> names;
static std::vector<cefrodil::Handle<1>> handles, of_shards;
static cefrodil::Writing<1> writing;
static std::atomic<bool> is_over{false};

static bool open_and_close() {
    Map other;
    return other.open({40000, 4, 2, 10}) == Status::ok && other.insert(1, 2).status == Status::ok && other.find(1) == 2u;
}

// A call that waits for another's computation, when the process forks, and one that computes.
static void compute_slowly() {
    for (uint64_t n = 0; !is_over; n++) {
        static_cast<void>(map.find_or_compute(KEYS + n / 2 % 100, [] {
            std::this_thread::sleep_for(std::chrono::microseconds(300));
            return uint64_t(1);
        }));
        static_cast<void>(map.erase(KEYS + n / 2 % 100));
    }
}

static void write_on() {
    for (uint64_t n = 0; !is_over; n++) {
        MUST(map.insert_or_assign(n % KEYS, n).status == Status::ok);
        MUST(full.insert_or_assign(n % (2 * KEYS), n).status == Status::ok);
        static_cast<void>(full.find(n / 2 % KEYS));
        MUST(writing.put(n % KEYS, {n}).status == Status::ok);
        MUST(names.insert_or_assign(n % KEYS, std::string(n % 100, 'x')).status == Status::ok);
    }
}

// Handles and guards come and go, and so do threads that take passes of the map.
static void churn() {
    const auto shape = cefrodil::shape_for_items(1000);
    while (!is_over) {
        std::vector<cefrodil::Handle<1>> others;
        cefrodil::Writing<1> other;
        MUST(shape && cefrodil::open(*shape, 1, 2, others) == Status::ok && others[0].hold(other) == Status::ok && open_and_close());
        static_cast<void>(writing.meter().counts());
        std::thread([] { MUST(map.find(1).has_value()); }).join();
    }
}

static bool sees_nothing_open() {
    const cefrodil::Computed<uint64_t> computed = map.find_or_compute(5, [] { return uint64_t(6); });
    std::optional<uint64_t> values[2];
    const uint64_t keys[2] = {1, 2};
    return !map.is_open() && !map.find(1) && map.get(1).status == Status::closed && map.insert(1, 1).status == Status::closed &&
           map.insert_or_assign(1, 1).status == Status::closed && map.erase(1) == Status::closed && map.clear() == Status::closed &&
           !full.is_open() && !full.find(1) && full.erase(1) == Status::closed && full.clear() == Status::closed &&
           !names.is_open() && !names.find(1) && names.erase(1) == Status::closed && computed.status == Status::closed &&
           computed.value == 6 && map.find_many(keys, 2, values) == 0 && map.size() == 0;
}

static void be_child(int number) {
    alarm(20);
    bool is_right = sees_nothing_open() && open_and_close() && writing.meter().counts().hits == 0;
    if (number % 2 == 0) {
        Map moved = std::move(map);
        is_right = is_right && !moved.is_open() && map.close() == Status::closed && map.open({100}) == Status::ok;
        is_right = is_right && map.insert(1, 2).status == Status::ok && map.find(1) == 2u && !map.find(2);
    }
    std::exit(is_right ? 0 : 2);
}

static int children_end_well() {
    int ended = 0;
    for (int i = 0; i < CHILDREN; i++) {
        const pid_t child = fork();
        if (child == 0) {
            be_child(i);
        }
        int status = -1;
        MUST(waitpid(child, &status, 0) == child);
        ended += WIFEXITED(status) && WEXITSTATUS(status) == 0;
        if (!WIFEXITED(status) || WEXITSTATUS(status) != 0) {
            std::printf("child %d: status %d\n", i, status);
        }
    }
    return ended;
}

// How often a lock of these passes was taken.
static int locks = 0;
struct CountedLocks {
    template <class T> using Atomic = std::atomic<T>;
    struct Mutex {
        void lock() { locks++; }
        void unlock() {}
    };
};

// A thread of the parent's may have had the lock of the passes when the process forked. So a child takes it at no thread's end.
static void a_child_takes_no_lock_for_its_pass() {
    cefrodil::inside::FreePassesOf<CountedLocks> passes(3);
    const size_t pass = passes.take();
    MUST(pass != 0 && locks == 1);
    const pid_t child = fork();
    if (child == 0) {
        passes.give(pass);
        _exit(locks == 1 ? 0 : 2);
    }
    int status = -1;
    MUST(waitpid(child, &status, 0) == child && WIFEXITED(status) && WEXITSTATUS(status) == 0);
    passes.give(pass);
    MUST(locks == 2 && passes.count() == 2);
}

// Maps are closed in any order. None is left in the list that a fork goes through.
static void closed_maps_are_not_listed() {
    const auto &listed = cefrodil::inside::Ownings::of_library().first;
    const auto *const before = listed;
    Map one, other;
    MUST(one.open({100}) == Status::ok && other.open({100}) == Status::ok && listed != before);
    MUST(other.close() == Status::ok && one.close() == Status::ok && listed == before);
}

int main() {
    closed_maps_are_not_listed();
    a_child_takes_no_lock_for_its_pass();
    const auto shape = cefrodil::shape_for_items(2000);
    MUST(shape && map.open({100000}) == Status::ok && full.open({KEYS, 1}) == Status::ok);
    MUST(cefrodil::open(*shape, 1, 3, handles) == Status::ok);
    MUST(writing.own(std::move(handles[2])) == Status::ok);
    MUST(cefrodil::open(*shape, 2, 3, of_shards) == Status::ok && names.open({KEYS}) == Status::ok);
    for (uint64_t key = 0; key < KEYS; key++) {
        MUST(map.insert(key, key).status == Status::ok);
    }
    MUST(writing.put(1, {1}).status == Status::ok && writing.get(1).status == Status::ok && writing.meter().counts().hits == 1);
    std::vector<std::thread> threads;
    threads.emplace_back(churn);
    threads.emplace_back(write_on);
    threads.emplace_back(compute_slowly);
    threads.emplace_back(compute_slowly);
    MUST(children_end_well() == CHILDREN);
    is_over = true;
    std::for_each(threads.begin(), threads.end(), [](std::thread &thread) { thread.join(); });
    MUST(map.find(1).has_value() && handles[0].get(1).status == Status::ok && map.size() >= KEYS);
    return outcome("forks");
}
