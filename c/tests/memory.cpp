// Each allocation of an opening, for more handles and of a list is refused in turn, the library's and those of C++: then the call returns
// no_memory, opens or lists nothing and keeps nothing. A list allocates in its turn, so other threads are held meanwhile. Linked with --wrap.
#include "cefrodil_filler.hpp"
#include "cefrodil_object_map.hpp"
#include "must.h"
#include "refused_memory.hpp"
#include <chrono>
#include <unistd.h>

using namespace cefrodil;

// Refuses each allocation of the call in turn. `as_before`: whether all is as it was. Returns whether the call succeeds at last, after some of the
// library's allocations and at least `own` of C++.
template <class Call, class AsBefore> static bool at_last(long own, Call call, AsBefore as_before) {
    for (long allowed = 0; allowed < 500; allowed++) {
        const long before = kept;
        left = allowed, of_library = 0;
        const Status status = call();
        left = -1;
        if (status == Status::ok) {
            return of_library > 0 && allowed - of_library >= own;
        }
        MUST(status == Status::no_memory && kept == before && as_before());
    }
    return false;
}

static const cefrodil_shape shape{uint64_t(1) << 62, 64, 100, 64, 5, 8, CEFRODIL_MIX_FULL, CEFRODIL_POLICY_SCAN_RESISTANT};

// A list has one vector. If nothing is listed, it is empty.
template <class List> static void lists(size_t words, List list) {
    std::vector<uint64_t> listed;
    const auto call = [&] {
        std::vector<uint64_t> fresh;
        const Status status = list(fresh);
        if (status == Status::ok) {
            listed = std::move(fresh);
        }
        MUST(fresh.empty());
        return status;
    };
    MUST(at_last(1, call, [&] { return listed.empty(); }) && listed.size() == words && listed[0] == 7 && listed[1] == 70);
}

// By a handle, and by a guard.
static void lists_of(std::vector<Handle<1>> &handles) {
    Writing<1> writing;
    lists(2, [&](std::vector<uint64_t> &list) { return handles[1].try_entries(list); });
    lists(3, [&](std::vector<uint64_t> &list) { return handles[1].try_stamped_entries(list); });
    MUST(handles[0].hold(writing) == Status::ok);
    lists(2, [&](std::vector<uint64_t> &list) { return writing.entries(list); });
    lists(3, [&](std::vector<uint64_t> &list) { return writing.stamped_entries(list); });
}

static void openings(uint32_t shards) {
    std::vector<Handle<1>> handles, loaded;
    std::vector<Status> statuses{Status::busy};
    MUST(at_last(4, [&] { return open(shape, shards, 2, handles); }, [&] { return handles.empty(); }));
    MUST(handles.size() == 2 && handles[0].try_put(7, {70}).status == Status::ok);
    MUST(handles[1].get(7).value && handles[0].meter().counts().hits == 1);
    lists_of(handles);
    const std::vector<uint64_t> entries{7, 70, 8, 80};
    const auto none = [&] { return loaded.empty() && statuses.size() == 1 && statuses[0] == Status::busy; };
    MUST(at_last(6, [&] { return open_with(shape, shards, 2, entries, loaded, statuses); }, none));
    MUST(statuses.size() == 2 && statuses[0] == Status::ok && statuses[1] == Status::ok && loaded.size() == 2 && loaded[1].get(8).value);
    // What is open already stays so.
    const auto is_as_before = [&] { return handles.size() == 2 && handles[1].get(7).value.has_value(); };
    MUST(at_last(4, [&] { return open(shape, shards, 3, handles); }, is_as_before));
    MUST(handles.size() == 3 && !handles[1].get(7).value);
}

// Spare handles may be used up by a call that finds no memory, so a new cache gives them each time.
static void more_handles(uint32_t shards) {
    std::vector<Handle<1>> later;
    const auto call = [&] {
        std::vector<Handle<1>> handles;
        const long allowed = left.exchange(-1);
        MUST(open(shape, shards, 1, handles) == Status::ok && handles[0].try_put(7, {70}).status == Status::ok);
        left = allowed, of_library = 0;
        const Status status = handles[0].more(2, later);
        MUST(handles[0].get(7).value);
        return status;
    };
    MUST(at_last(4, call, [&] { return later.empty(); }) && later.size() == 2 && later[1].get(7).value);
}

// To hold and to release take no memory, nor does what a guard does with its handle.
static void guards() {
    std::vector<Handle<1>> handles;
    MUST(open(shape, 4, 2, handles) == Status::ok);
    const long before = kept;
    uint64_t moment = 9;
    left = 0;
    {
        Writing<1> writing, other;
        MUST(handles[0].hold(writing) == Status::ok && writing.put(7, {70}).status == Status::ok && handles[1].hold(other) == Status::held);
        writing.end();
        MUST(other.own(std::move(handles[1])) == Status::ok);
        writing = std::move(other);
        handles[1] = writing.disown();
    }
    MUST(handles[0].try_moment(moment) == Status::ok && moment == 1 && handles[1].is_open());
    left = -1;
    MUST(kept == before);
}

static std::vector<Handle<1>> both;

// Puts forty keys. `at`: the first change of theirs, 0 if they are held.
static void put_batch(Status expected, uint64_t at) {
    uint64_t keys[40];
    std::array<uint64_t, 1> values[40];
    cefrodil_put_answer answers[40];
    for (uint64_t i = 0; i < 40; i++) {
        keys[i] = 100 + i, values[i] = {i};
    }
    const uint64_t before = both[1].meter().counts().held;
    MUST(both[1].try_put_many(keys, 40, values, answers) == Status::ok);
    for (uint64_t i = 0; i < 40; i++) {
        MUST(Status(answers[i].status) == expected && answers[i].reply.at == (at != 0 ? at + i : 0));
    }
    MUST(both[1].meter().counts().held == before + (expected == Status::held ? 40 : 0));
}

// Whether a call by the other handle is held, and counted once.
template <class Call> static bool is_held(Call call) {
    const uint64_t before = both[1].meter().counts().held;
    return inside::status_of(call(both[1])) == Status::held && both[1].meter().counts().held == before + 1;
}

static void each_call_is_held() {
    std::vector<uint64_t> list{1, 2};
    uint64_t len = 99;
    MUST(is_held([](auto &handle) { return handle.try_put(7, {71}); }) && is_held([](auto &handle) { return handle.put_within(3, 7, {71}); }));
    MUST(is_held([](auto &handle) { return handle.try_put_if(7, 1, {71}); }) && is_held([](auto &handle) { return handle.try_put_if_absent(8, {80}); }));
    MUST(is_held([](auto &handle) { return handle.try_remove(7); }) && is_held([](auto &handle) { return handle.try_swap(7, {71}); }));
    MUST(is_held([](auto &handle) { return handle.try_swap_if(7, 1, {71}); }) && is_held([](auto &handle) { return handle.try_take(7); }));
    MUST(is_held([](auto &handle) { return handle.try_take_if(7, 1); }) && is_held([](auto &handle) { return handle.try_evict(7); }));
    MUST(is_held([](auto &handle) { return handle.try_peek(7); }) && is_held([](auto &handle) { return handle.try_entry_at(7, 0); }));
    MUST(is_held([&](auto &handle) { return handle.try_len(len); }) && len == 99);
    MUST(is_held([&](auto &handle) { return handle.try_moment(len); }) && len == 99);
    MUST(is_held([&](auto &handle) { return handle.try_entries(list); }) && list.empty());
    MUST(is_held([&](auto &handle) { return handle.try_stamped_entries(list); }) && list.empty());
    Writing<1> writing;
    MUST(is_held([&](auto &handle) { return handle.hold(writing); }) && !writing.holds());
    // Lookups need no turn.
    MUST(both[1].get(7).since == 1 && both[1].get_or_turn(7).since == 1 && both[1].get(8).status == Status::absent);
}

// While a list has the turn, each call that needs it is held, and each put of a batch, and nothing is changed.
static void batch_beside_a_list() {
    std::vector<uint64_t> list;
    list.reserve(100);
    MUST(open(shape, 1, 2, both) == Status::ok && both[0].try_put(7, {70}).status == Status::ok);
    in_turn = [] {
        put_batch(Status::held, 0);
        each_call_is_held();
    };
    MUST(both[0].try_entries(list) == Status::ok && list.size() == 2 && in_turn == nullptr);
    put_batch(Status::ok, 2);
    MUST(both[0].try_entries(list) == Status::ok && list.size() == 82 && both[0].get(139).since == 41);
    std::vector<Handle<1>>().swap(both);
}

// A filler that finds no memory leaves the guard as it was.
static void fillers() {
    std::vector<Handle<1>> handles;
    Writing<1> writing;
    MUST(open(shape, 1, 1, handles) == Status::ok && writing.own(std::move(handles[0])) == Status::ok && writing.put(7, {70}).status == Status::ok);
    std::optional<Filler<1>> filler;
    long refusals = 0;
    for (; !filler && refusals < 10; refusals++) {
        const long before = kept;
        left = refusals;
        const bool is_made = inside::has_memory([&] { filler.emplace(std::move(writing), 10); });
        left = -1;
        MUST(is_made ? !writing.holds() : kept == before && writing.get(7).value);
    }
    MUST(filler && refusals == 3 && filler->writing().get(7).value);
}

// A thread that has no memory to note its pass gives it back, and uses the shared one.
static void passes_of_threads(const cefrodil_shape &one) {
    inside::Passes<1> passes;
    MUST(passes.open(one, 1, 2) == Status::ok && passes.free_count() == 1);
    const auto is_own = [&](inside::Slot<1> &slot) { return &slot.handle != &passes.shared(); };
    left = 0;
    MUST(!passes.call(is_own) && passes.free_count() == 1);
    left = -1;
    MUST(passes.call(is_own) && passes.free_count() == 0);
}

// A pass is opened for the first thread that takes it. A thread that finds no memory for that uses the shared one. The next one tries again.
static void passes_opened_later(const cefrodil_shape &one) {
    inside::Passes<1> passes;
    MUST(passes.open(one, 1, 3) == Status::ok);
    bool is_own = false;
    long allowed = 0;
    for (; allowed < 40 && !is_own; allowed++) {
        std::thread([&] {
            left = allowed;
            is_own = passes.call([&](inside::Slot<1> &slot) { return &slot.handle != &passes.shared(); });
            left = -1;
        }).join();
        MUST(passes.free_count() == 2);
    }
    MUST(is_own && allowed > 5);
}

// So a thread's first call of a map goes on without memory. Later calls take none.
static void calls_of_a_map(map<uint64_t, uint64_t> &numbers) {
    for (int call = 0; call < 3; call++) {
        left = call == 1 ? -1 : 0;
        MUST(numbers.insert_or_assign(7, 70).status == Status::ok && numbers.find(7) == 70u);
        MUST(numbers.find_or_compute(8, [] { return 80; }).value == 80);
        MUST(numbers.update(7, [](uint64_t n) { return n + 1; }).value == 71u && numbers.erase(8) == Status::ok && numbers.size() == 1);
        left = -1;
    }
}

// A map for a few entries takes little: with the handle of its first thread, and an entry.
template <class Map> static void small_map() {
    const long most = 16000;
    const long before = bytes;
    Map numbers;
    MUST(numbers.open({16}) == Status::ok && bytes - before <= most);
    MUST(numbers.insert(1, 1).status == Status::ok && numbers.shared_calls() == 0 && bytes - before <= most);
}

// What a thread keeps of maps that have ended does not add up.
static void maps_that_end() {
    long after_three = 0;
    for (int n = 0; n < 30; n++) {
        map<uint64_t, uint64_t> numbers;
        MUST(numbers.open({10, 1, 2}) == Status::ok && numbers.insert(1, 1).status == Status::ok && numbers.close() == Status::ok);
        after_three = n == 3 ? long(kept) : after_three;
    }
    MUST(kept == after_three);
}

static map<uint64_t, uint64_t> turns;
static std::vector<std::thread> others;
static std::atomic<bool> has_ended{false};

// Waits until calls of other threads were held three times. On a machine with much else to do that may take long.
static void wait_for_held(uint64_t before) {
    for (int n = 0; turns.meter().counts().held < before + 3 && n < 60000; n++) {
        std::this_thread::sleep_for(std::chrono::milliseconds(1));
    }
    MUST(turns.meter().counts().held >= before + 3 && !has_ended);
}

// While one thread has the turn, each change by another one is held, and changes nothing.
static void held_at_once() {
    std::thread([] {
        MUST(turns.erase(7) == Status::held && turns.find(7) == 70u && turns.insert_or_assign(7, 71).status == Status::held);
        MUST(turns.insert(9, 90).status == Status::held && turns.update(7, [](uint64_t n) { return n + 1; }).status == Status::held);
        MUST(turns.clear() == Status::held && turns.find(7) == 70u && turns.find(8) == 80u && !turns.contains(9) && turns.size() == 2);
        const auto computed = turns.find_or_compute(9, [] { return 91; });
        MUST(computed.status == Status::held && computed.value == 91 && computed.computed && !turns.contains(9));
        has_ended = true;
    }).join();
}
// Here it is repeated: it ends after the turn has.
static void held_a_while() {
    const uint64_t before = turns.meter().counts().held;
    others.emplace_back([] {
        MUST(turns.insert_or_assign(9, 90).status == Status::ok);
        has_ended = true;
    });
    wait_for_held(before);
}
// The put of a computed value is held, and an erasure waits for it: or else the value would be put after the erasure has returned.
static void held_computation() {
    const uint64_t before = turns.meter().counts().held;
    others.emplace_back([] { MUST(turns.find_or_compute(9, [] { return 90; }).status == Status::ok); });
    wait_for_held(before);
    others.emplace_back([] {
        MUST(turns.erase(9) == Status::ok);
        has_ended = true;
    });
    std::this_thread::sleep_for(std::chrono::milliseconds(20));
    MUST(!has_ended);
}

static void turns_of_others(void (*meanwhile)(), uint32_t tries) {
    MUST(turns.open({100, 1, 8, tries}) == Status::ok && turns.insert(7, 70).status == Status::ok && turns.insert(8, 80).status == Status::ok);
    has_ended = false;
    in_turn = meanwhile;
    MUST(turns.clear() == Status::ok && in_turn == nullptr);
    for (std::thread &other : others) {
        other.join();
    }
    MUST(has_ended && !turns.contains(7) && !turns.contains(8) && turns.contains(9) == (meanwhile == held_a_while));
    MUST(turns.size() == turns.contains(9) && turns.close() == Status::ok);
    std::vector<std::thread>().swap(others);
}

static std::atomic<int> step{0};

static void wait_for_step(int wanted) {
    while (step < wanted) {
        std::this_thread::yield();
    }
}

// A value that is computed while `clear` begins is not put, however far `clear` is. Here it would be put while the list is made.
static void computation_beside_clear() {
    MUST(turns.open({100, 1, 8, 0}) == Status::ok && turns.insert(7, 70).status == Status::ok);
    others.emplace_back([] {
        const auto computed = turns.find_or_compute(9, [] {
            step = 1;
            wait_for_step(2);
            return uint64_t(90);
        });
        MUST(computed.status == Status::stale);
    });
    wait_for_step(1);
    in_turn = [] {
        step = 2;
        others[0].join();
    };
    MUST(turns.clear() == Status::ok && in_turn == nullptr && turns.size() == 0 && turns.close() == Status::ok);
    std::vector<std::thread>().swap(others);
}

// A map of objects takes memory for each. Without it nothing is put, and the value is still the caller's. A removal takes none, and frees.
static void by_object_maps() {
    object_map<uint64_t, std::unique_ptr<int>> numbers;
    MUST(at_last(6, [&] { return numbers.open({100, 4, 4}); }, [&] { return !numbers.is_open(); }));
    MUST(numbers.insert(1, std::make_unique<int>(1)).status == Status::ok);
    auto two = std::make_unique<int>(2);
    bool is_called = false;
    left = 0;
    MUST(numbers.insert(2, std::move(two)).status == Status::no_memory && *two == 2 && numbers.size() == 1);
    MUST(numbers.insert_or_assign(1, std::move(two)).status == Status::no_memory && *two == 2);
    MUST(numbers.update(1, [&](const std::unique_ptr<int> &) { return is_called = true, nullptr; }) == Status::no_memory && !is_called);
    const auto pinned = numbers.pin_or_compute(2, [&] { return is_called = true, std::make_unique<int>(2); });
    MUST(pinned.status == Status::no_memory && !pinned.value && !pinned.computed && !is_called && numbers.size() == 1);
    MUST(numbers.look(1, [&](const std::unique_ptr<int> &one) { is_called = *one == 1; }) == Status::ok && is_called);
    left = -1;
    MUST(at_last(1, [&] { return numbers.clear(); }, [&] { return numbers.contains(1) && numbers.size() == 1; }) && numbers.size() == 0);
    MUST(numbers.insert(1, std::make_unique<int>(1)).status == Status::ok);
    left = 0;
    MUST(numbers.erase(1) == Status::ok && numbers.free_unused() == 2);
    left = -1;
    object_map<int, int> counts;
    MUST(counts.open({100}) == Status::ok);
    left = 0;
    const auto computed = counts.find_or_compute(1, [] { return 10; });
    left = -1;
    MUST(computed.status == Status::no_memory && computed.value == 10 && computed.computed && !counts.contains(1));
    MUST(numbers.close() == Status::ok && counts.close() == Status::ok);
}

// No call of a full map takes memory.
static void puts_that_evict() {
    map<uint64_t, uint64_t> numbers;
    MUST(numbers.open({100, 4, 4}) == Status::ok && !numbers.contains(0));
    left = 0;
    for (uint64_t key = 0; key < 1000; key++) {
        MUST(numbers.insert(key, key).status != Status::no_memory && numbers.find(key / 2).value_or(key / 2) >= key / 2);
    }
    MUST(numbers.find(999) == 999u && numbers.erase(999) == Status::ok && numbers.size() == 109 && numbers.meter().counts().evictions > 500);
    left = -1;
}

static void by_maps() {
    map<uint64_t, uint64_t> numbers;
    MUST(at_last(6, [&] { return numbers.open({100, 4, 4}); }, [&] { return !numbers.is_open(); }));
    calls_of_a_map(numbers);
    MUST(at_last(1, [&] { return numbers.clear(); }, [&] { return numbers.find(7) == 71u && numbers.size() == 1; }) && numbers.size() == 0);
    passes_of_threads(shape);
    passes_opened_later(shape);
    small_map<map<uint64_t, uint64_t>>();
    small_map<timed_map<uint64_t, uint64_t>>();
    small_map<object_map<uint64_t, uint64_t>>();
    maps_that_end();
    puts_that_evict();
    turns_of_others(held_at_once, 0);
    turns_of_others(held_a_while, UINT32_MAX);
    turns_of_others(held_computation, UINT32_MAX);
    computation_beside_clear();
}

int main() {
    alarm(100); // so that a thread which waits for ever fails the test
    const long before = kept;
    openings(1);
    openings(4);
    more_handles(1);
    more_handles(4);
    guards();
    fillers();
    batch_beside_a_list();
    std::thread(by_maps).join(); // with what the thread keeps
    std::thread(by_object_maps).join();
    MUST(kept == before);
    return outcome("memory");
}
