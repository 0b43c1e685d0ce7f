// A map of objects in threads: values are computed and inserted once, nobody sees one that is dead, and all are destroyed. Argument: by how much less to
// do.
#include "cefrodil_object_map.hpp"
#include "in_threads.hpp"
#include "must.h"
#include "tracked.hpp"
#include <cstdlib>

using cefrodil::Left;
using cefrodil::object_map;
using cefrodil::Status;

static void computed_once() {
    object_map<int, std::string> map;
    MUST(map.open({1000}) == Status::ok);
    std::atomic<int> computed{0}, wrong{0};
    in_threads(4, [&](size_t) {
        for (int key = 0; key < 200; key++) {
            const auto found = map.find_or_compute(key, [&] { return computed++, std::string(100, char('a' + key % 26)); });
            wrong += found.value != std::string(100, char('a' + key % 26));
        }
    });
    MUST(wrong == 0 && computed == 200 && map.size() == 200);
    // A removal while it computes: the value is not put.
    const auto stale = map.find_or_compute(1000, [&] { return static_cast<void>(map.erase(1000)), std::string("old"); });
    MUST(stale.status == Status::stale && stale.value == "old" && stale.computed && !map.contains(1000));
    const auto present = map.find_or_compute(1001, [&] { return static_cast<void>(map.clear()), std::string("old"); });
    MUST(present.status == Status::stale && !map.contains(1001));
    // A value that was put meanwhile, and is evicted again.
    object_map<int, std::string> few;
    MUST(few.open({10, 1}) == Status::ok);
    const auto evicted = few.find_or_compute(0, [&] {
        for (int key = 0; key < 200; key++) {
            MUST(few.insert_or_assign(key, "new").status == Status::ok);
        }
        return std::string("old");
    });
    MUST(evicted.status == Status::stale && !few.contains(0));
    // The entry that an update has looked up is gone, and a computation begins before the update's function changes what it reads.
    int store = 1;
    std::atomic<bool> has_read{false}, has_changed{false};
    Status status = Status::ok;
    std::thread other;
    const auto read = [&] {
        const std::string value = std::to_string(store);
        has_read = true;
        while (!has_changed) {
            std::this_thread::yield();
        }
        return value;
    };
    const auto change = [&](const std::string &) {
        MUST(map.erase(5) == Status::ok);
        other = std::thread([&] { status = map.find_or_compute(5, read).status; });
        while (!has_read) {
            std::this_thread::yield();
        }
        store = 2;
        return std::to_string(store);
    };
    MUST(map.insert(5, "0").status == Status::ok || map.contains(5));
    MUST(map.update(5, change) == Status::absent);
    has_changed = true;
    other.join();
    MUST(status == Status::stale && !map.contains(5));
    object_map<int, std::string> closed;
    MUST(closed.find_or_compute(1, [] { return std::string("x"); }).status == Status::closed);
}

// A listener that hears of what a computed value evicted may compute that value's key.
static void computed_by_a_listener() {
    object_map<int, std::string> map;
    int key = 0, heard = 0;
    const auto hear = [&](const int &, const std::string &, Left why) {
        if (why == Left::evicted && heard++ == 0) {
            MUST(map.erase(key) == Status::ok);
            MUST(map.find_or_compute(key, [] { return std::string("again"); }).status == Status::ok);
        }
    };
    MUST(map.open({10, 1}, hear) == Status::ok);
    while (heard == 0 && key < 1000) {
        key++;
        static_cast<void>(map.find_or_compute(key, [] { return std::string("first"); }));
    }
    MUST(heard == 1 && map.find(key) == "again");
}

// Of several threads that insert a key, one does.
static void inserted_once(uint64_t keys) {
    object_map<uint64_t, Tracked> map;
    MUST(map.open({100000}) == Status::ok);
    std::atomic<uint64_t> inserted{0};
    in_threads(4, [&](size_t n) {
        for (uint64_t key = 0; key < keys; key++) {
            inserted += map.insert(key, Tracked(n)).status == Status::ok;
        }
    });
    MUST(inserted == keys && map.size() == keys);
}

// Threads look up, put and remove, some without a pass. Nobody sees a value that is dead, or of another key, and all are destroyed at the end.
static void threads(long less, const cefrodil::MapOptions &options) {
    std::atomic<long> wrong{0}, entered{0}, heard{0}, hits{0};
    const long before = living;
    {
        object_map<uint64_t, Tracked> map;
        const auto hear = [&](const uint64_t &key, const Tracked &value, Left) { heard++, wrong += !value.lives() || value.number() % 1000 != key; };
        MUST(map.open(options, hear) == Status::ok);
        const auto work = [&](uint64_t seed) {
            for (uint64_t n = 0; n < 60000 / uint64_t(less); n++) {
                seed = seed * 6364136223846793005 + 1442695040888963407;
                const uint64_t key = (seed >> 33) % 300, way = (seed >> 50) % 8;
                const uint64_t number = n * 1000 + key;
                if (way < 4) {
                    hits += map.look(key, [&](const Tracked &value) { wrong += value.number() % 1000 != key || !value.lives(); }) == Status::ok;
                } else if (way == 4) {
                    entered += map.insert(key, Tracked(number)).status == Status::ok;
                } else if (way == 5) {
                    entered += map.insert_or_assign(key, Tracked(number)).status == Status::ok;
                } else if (way == 6) {
                    entered += map.update(key, [&](const Tracked &) { return Tracked(number); }) == Status::ok;
                } else {
                    static_cast<void>(map.erase(key));
                }
            }
        };
        in_threads(4, [&](size_t n) { work(n + 1); });
        MUST(wrong == 0 && hits > 0 && entered - heard == long(map.size()));
    }
    MUST(living == before);
}

int main(int argc, char **argv) {
    const long less = argc > 1 ? std::atol(argv[1]) : 1;
    computed_once();
    computed_by_a_listener();
    inserted_once(20000 / uint64_t(less));
    threads(less, {1000});
    threads(less, {60, 2, 3});
    threads(less, {1000, 16, 1});
    MUST(living == 0);
    return outcome("object_threads");
}
