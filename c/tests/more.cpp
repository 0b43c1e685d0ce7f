// A cache gives out spare handles in C++. What they came to is counted with the others', also while threads ask, work and read the counts.
#include "cefrodil.hpp"
#include "must.h"
#include <atomic>
#include <cstdint>
#include <thread>
#include <utility>

using namespace cefrodil;

static const cefrodil_shape shape{uint64_t(1) << 62, 64, 100, 64, 5, 8, CEFRODIL_MIX_FULL, CEFRODIL_POLICY_SCAN_RESISTANT};

// More handles look up and write as the first ones do, and replace those that were in the vector. Each meter counts the calls of all.
static void are_like_the_first(uint32_t shards) {
    std::vector<Handle<2>> handles, later;
    MUST(open(shape, shards, 2, handles) == Status::ok && handles[0].try_put(1, {10, 11}).status == Status::ok);
    const Meter meter = handles[0].meter();
    MUST(handles[0].more(3, later) == Status::ok && later.size() == 3);
    for (Handle<2> &handle : later) {
        MUST(handle.get(1).value && handle.get(2).status == Status::absent);
    }
    MUST(meter.counts().hits == 3 && meter.counts().misses == 3 && later[2].meter().counts().hits == 3);
    MUST(later[2].try_put(2, {20, 21}).status == Status::ok && handles[1].get(2).value && later[0].meter().counts().hits == 4);
    // The newest asks, when the others are closed.
    handles.clear();
    MUST(later[2].more(1, handles) == Status::ok && handles.size() == 1 && later[0].more(1, handles) == Status::ok && handles.size() == 1);
    later.clear();
    MUST(handles[0].get(2).value && meter.counts().hits == 5 && handles[0].meter().counts().hits == 5);
    handles.clear();
    MUST(meter.counts().hits == 5 && meter.counts().misses == 3);
}

// Of 64 spare handles each is given out once, and only if all that are asked for are there. Unless ok, nothing changes.
static void too_many() {
    std::vector<Handle<1>> handles, later;
    MUST(open(shape, 1, 1, handles) == Status::ok && handles[0].more(60, later) == Status::ok && later.size() == 60);
    const auto refused = [&](size_t count) { return handles[0].more(count, later) == Status::bad_handles && later.size() == 60 && later[59].is_open(); };
    MUST(refused(0) && refused(5) && refused(1024) && refused(1025) && refused(SIZE_MAX));
    std::vector<Handle<1>> last;
    MUST(later[0].more(4, last) == Status::ok && refused(1));
    last.clear();
    MUST(refused(1) && later[0].close() == Status::ok && later[0].more(1, last) == Status::closed && last.empty());
    std::vector<Handle<1>> most;
    MUST(open(shape, 1, 1024, most) == Status::ok && most[0].more(1, later) == Status::bad_handles && later.size() == 60);
}

// Who holds may ask, and so may others meanwhile. To be refused counts as nothing.
static void beside_a_guard() {
    std::vector<Handle<1>> handles, one, other;
    Writing<1> writing;
    MUST(open(shape, 4, 2, handles) == Status::ok && writing.more(1, one) == Status::closed && handles[0].hold(writing) == Status::ok);
    MUST(writing.more(1, one) == Status::ok && handles[1].more(1, other) == Status::ok && handles[0].more(1, one) == Status::closed);
    MUST(one[0].try_put(1, {10}).status == Status::held && writing.put(1, {10}).status == Status::ok && other[0].get(1).value);
    MUST(writing.more(100, one) == Status::bad_handles && writing.meter().counts().held == 1 && writing.meter().counts().hits == 1);
    writing.end();
    MUST(one[0].hold(writing) == Status::ok && writing.put(2, {20}).status == Status::ok && writing.get(2).value);
    MUST(handles[0].meter().counts().hits == 2);
}

// A handle that C opened has no counts, nor have those that it asks for.
static void of_a_handle_of_c() {
    Handle<1> handle;
    std::vector<Handle<1>> later;
    MUST(cefrodil_open(&shape, 1, 1, handle.raw(), 1) == CEFRODIL_OK && handle.more(2, later) == Status::ok && later.size() == 2);
    MUST(later[1].try_put(1, {10}).status == Status::ok && handle.get(1).value && later[0].get(1).value && later[0].meter().counts().hits == 0);
}

enum { THREADS = 4, ROUNDS = 8, LOOKUPS = 100 };

// Takes handle after handle, and looks a key up by each.
static void ask(Handle<1> own) {
    for (int round = 0; round < ROUNDS; round++) {
        std::vector<Handle<1>> next;
        Status status = Status::held;
        while (status == Status::held) {
            status = own.more(2, next);
            std::this_thread::yield();
        }
        MUST(status == Status::ok && next.size() == 2);
        for (int n = 0; n < LOOKUPS; n++) {
            MUST(own.get(1).value && next[n % 2].get(1).value);
        }
        own = std::move(next[1]);
    }
}

// All spare handles are given out, and no count is lost.
static void in_threads() {
    std::vector<Handle<1>> handles;
    std::vector<std::thread> running;
    MUST(open(shape, 4, 1 + THREADS, handles) == Status::ok && handles[0].try_put(1, {10}).status == Status::ok);
    const Meter meter = handles[0].meter();
    for (int i = 0; i < THREADS; i++) {
        running.emplace_back(ask, std::move(handles[1 + i]));
    }
    uint64_t before = 0;
    for (int n = 0; n < 1000; n++) {
        const uint64_t now = meter.counts().hits;
        MUST(before <= now);
        before = now;
    }
    for (std::thread &thread : running) {
        thread.join();
    }
    MUST(meter.counts().hits == 2 * THREADS * ROUNDS * LOOKUPS && handles[0].more(1, handles) == Status::bad_handles && handles.size() == 1 + THREADS);
}

int main() {
    are_like_the_first(1);
    are_like_the_first(4);
    too_many();
    beside_a_guard();
    of_a_handle_of_c();
    in_threads();
    return outcome("more");
}
