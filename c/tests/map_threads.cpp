// A map in threads: no value is torn or of another key, no update is lost, and what returned ok was done. Threads take passes and give them back,
// whether they end before the map or after it.
#include "cefrodil_map.hpp"
#include "in_threads.hpp"
#include "must.h"
#include <algorithm>
#include <cstdlib>
#include <unistd.h>

using cefrodil::map;
using cefrodil::Status;

using Numbers = map<uint64_t, uint64_t>;

// Repeats a change until it is not held.
template <class Change> static Status surely(Change change) {
    for (;;) {
        const Status status = change();
        if (status != Status::held && status != Status::busy) {
            return status;
        }
        std::this_thread::yield();
    }
}

// A thread gives its pass back, so the next one has a pass of its own, too. A thread that finds none has the shared one, and has it alone.
static void passes() {
    cefrodil_shape shape{};
    cefrodil::inside::Passes<1> two;
    MUST(cefrodil_shape_for_items(100, 1, &shape) == CEFRODIL_OK && two.open(shape, 1, 2) == Status::ok && two.free_count() == 1);
    using Slot = cefrodil::inside::Slot<1>;
    const auto is_own = [&](Slot &slot) { return &slot.handle != &two.shared(); };
    for (int round = 0; round < 20; round++) {
        std::thread([&] { MUST(two.call(is_own) && two.free_count() == 0 && two.call(is_own)); }).join();
        MUST(two.free_count() == 1);
    }
    MUST(two.call(is_own) && two.free_count() == 0);
    std::atomic<int> within{0}, at_once{0}, own{0};
    in_threads(4, [&](size_t) {
        for (int n = 0; n < 300; n++) {
            two.call([&](Slot &slot) {
                own += is_own(slot);
                at_once += ++within != 1;
                std::this_thread::yield();
                within--;
            });
        }
    });
    MUST(at_once == 0 && own == 0 && two.call(is_own));
}

// More threads than can get a handle after the opening have a pass each at the same time.
static void passes_of_many_threads() {
    constexpr uint32_t count = 70;
    Numbers numbers;
    MUST(numbers.open({100, 1, 1 + count}) == Status::ok);
    std::atomic<uint32_t> left{count};
    in_threads(count, [&](uint64_t thread) {
        MUST(!numbers.find(thread));
        for (left--; left != 0;) {
            std::this_thread::yield();
        }
    });
    MUST(numbers.shared_calls() == 0 && numbers.meter().counts().misses == count);
}

// A thread has a pass of each of its maps, though they are more than it has places for those that it used lately. Claims to maps that have ended
// make room.
static void passes_of_many_maps() {
    constexpr size_t count = 600;
    std::vector<Numbers> all(count);
    const auto use_each = [&](uint64_t key) {
        for (size_t n = 0; n < 3 * count; n++) {
            Numbers &numbers = all[n % count];
            MUST(surely([&] { return numbers.insert_or_assign(key, n).status; }) == Status::ok && numbers.find(key) == n);
        }
    };
    const auto are_own = [&] { return std::all_of(all.begin(), all.end(), [](const Numbers &numbers) { return numbers.shared_calls() == 0; }); };
    for (int round = 0; round < 2; round++) {
        for (Numbers &numbers : all) {
            MUST(numbers.close() != Status::held && numbers.open({10, 1, 3}) == Status::ok);
        }
        use_each(3);
        std::thread([&] { use_each(4); }).join();
        std::thread([&] { use_each(5); }).join();
        MUST(are_own() && std::all_of(all.begin(), all.end(), [](const Numbers &numbers) { return numbers.size() == 3; }));
    }
}

// Calls by the shared pass are counted, and others are not.
static void shared_calls() {
    Numbers numbers, alone;
    MUST(numbers.shared_calls() == 0 && numbers.open({100, 1, 2}) == Status::ok && alone.open({100, 1, 1}) == Status::ok);
    const auto calls = [](Numbers &called) {
        const uint64_t before = called.shared_calls();
        MUST(called.insert_or_assign(1, 10).status == Status::ok && called.find(1) == 10u);
        return called.shared_calls() - before;
    };
    MUST(calls(numbers) == 0 && calls(alone) == 2);
    std::thread([&] { MUST(calls(numbers) == 2 && calls(alone) == 2); }).join();
    MUST(calls(numbers) == 0 && numbers.shared_calls() == 2);
    // One call of the index looks at most 32 keys up.
    const std::vector<uint64_t> keys(100, 1);
    std::vector<std::optional<uint64_t>> values(keys.size());
    for (const size_t count : {0, 1, 32, 33, 64, 100}) {
        const uint64_t before = alone.shared_calls();
        MUST(alone.find_many(keys.data(), count, values.data()) == count && alone.shared_calls() - before == (count + 31) / 32);
    }
}

// No two threads have the same pass, in whatever order passes come back.
static void passes_in_any_order() {
    cefrodil::inside::FreePasses passes(4);
    const size_t one = passes.take(), two = passes.take();
    passes.give(one);
    const size_t three = passes.take(), four = passes.take();
    MUST(two != three && two != four && three != four && passes.take() == 0 && passes.count() == 0);
    MUST(two != 0 && three != 0 && four != 0 && std::max({two, three, four}) == 3);
}

// An object of a thread that calls when the thread has given its pass back. Another thread may have it by then, so the call has the shared one.
struct CalledLast {
    cefrodil::inside::Passes<1> *passes = nullptr;
    ~CalledLast() {
        const auto is_shared = [&](cefrodil::inside::Slot<1> &slot) { return &slot.handle == &passes->shared(); };
        MUST(passes == nullptr || (passes->free_count() == 1 && passes->call(is_shared)));
    }
};

static void passes_at_the_end() {
    cefrodil_shape shape{};
    cefrodil::inside::Passes<1> two;
    MUST(cefrodil_shape_for_items(100, 1, &shape) == CEFRODIL_OK && two.open(shape, 1, 2) == Status::ok);
    std::thread([&] {
        static thread_local CalledLast last; // before the first call, so it goes after what that call makes
        last.passes = &two;
        two.call([](cefrodil::inside::Slot<1> &) {});
        MUST(two.free_count() == 0);
    }).join();
    MUST(two.free_count() == 1);
}

// A value of seven words, each of which says the same: its key, the thread that put it, and the number of that put.
struct Told {
    uint64_t words[7];
};

static Told told(uint64_t key, uint64_t thread, uint64_t number) {
    const uint64_t all = key << 56 | thread << 48 | number;
    return {{all, ~all, all + 1, all * 3, all ^ 5, all - 7, all * 11}};
}

static bool are_equal(const Told &one, const Told &other) { return std::equal(one.words, one.words + 7, other.words); }

// What threads have put. A number is noted before its put.
struct Notes {
    static constexpr uint64_t keys = 40, threads = 4;
    std::atomic<uint64_t> numbers[keys][threads]{};

    Told next(uint64_t key, uint64_t thread) { return told(key, thread, numbers[key][thread] += 1); }
    bool were_put(uint64_t key, const Told &value) const {
        const uint64_t all = value.words[0], thread = all >> 48 & 255, number = all & 0xffffffffffff;
        return all >> 56 == key && thread < threads && number != 0 && number <= numbers[key][thread] && are_equal(value, told(key, thread, number));
    }
};

static void change(map<uint16_t, Told> &all, Notes &notes, uint64_t thread, uint64_t n) {
    const uint64_t key = n * 2654435761 / 64 % Notes::keys;
    const auto number = static_cast<uint16_t>(key);
    const auto found = all.find(number);
    MUST(!found || notes.were_put(key, *found));
    switch (n % 6) {
    case 0: MUST(all.insert_or_assign(number, notes.next(key, thread)).status != Status::busy); break;
    case 1: MUST(all.insert(number, notes.next(key, thread)).status != Status::closed); break;
    case 2: MUST(all.erase(number) != Status::changed); break;
    case 3:
    case 4: {
        const auto next = [&](const Told &old) {
            MUST(notes.were_put(key, old));
            return notes.next(key, thread);
        };
        const auto made = n % 6 == 3 ? all.update(number, next) : all.update_or_insert(number, notes.next(key, thread), next);
        MUST(made.value ? made.status == Status::ok && notes.were_put(key, *made.value) : made.status != Status::present);
        MUST(n % 6 == 3 || made.status != Status::absent);
        break;
    }
    default: MUST(notes.were_put(key, all.find_or_compute(number, [&] { return notes.next(key, thread); }).value)); break;
    }
}

// Threads read and write a map that is too small. `passes`: with fewer than threads, some share one.
static void values(uint32_t passes) {
    map<uint16_t, Told> all;
    Notes notes;
    MUST(all.open({1, 2, passes}) == Status::ok && all.capacity() < Notes::keys);
    in_threads(Notes::threads, [&](size_t thread) {
        for (uint64_t n = 0; n < 15000 / fewer; n++) {
            change(all, notes, thread, n + thread * 1000003);
        }
    });
    uint64_t found = 0;
    for (uint16_t key = 0; key < Notes::keys; key++) {
        found += all.contains(key);
    }
    MUST(found == all.size() && all.size() <= all.capacity() && all.meter().counts().evictions > 100 / fewer);
    MUST(all.clear() == Status::ok && all.size() == 0);
}

// A call whose turn another thread has is repeated, and then done.
template <class Function> static bool counted(Numbers &numbers, uint64_t key, Function one_more) {
    const Status updated = numbers.update(key, one_more).status;
    MUST(updated == Status::ok || updated == Status::absent);
    if (updated == Status::ok) {
        return true;
    }
    const Status inserted = numbers.insert(key, 1).status;
    MUST(inserted == Status::ok || inserted == Status::present);
    return inserted == Status::ok;
}

// Each thread adds to the same keys, by update and by update_or_insert. Within the function another thread has its turn.
static void updates(uint32_t passes) {
    Numbers numbers;
    MUST(numbers.open({100, 1, passes}) == Status::ok);
    in_threads(4, [&](size_t) {
        for (uint64_t n = 0; n < 2000 / fewer; n++) {
            const uint64_t key = n % 3;
            const auto one_more = [&](uint64_t old) {
                n % 4 == 0 ? std::this_thread::yield() : void();
                return old + 1;
            };
            while (!counted(numbers, key, one_more)) {
            }
            MUST(numbers.update_or_insert(3, 1, one_more).status == Status::ok);
        }
    });
    MUST(numbers.find(0).value_or(0) + numbers.find(1).value_or(0) + numbers.find(2).value_or(0) == 8000 / fewer);
    MUST(numbers.find(3) == 8000 / fewer && numbers.size() == 4);
}

// Two threads count a new key at the same time, and neither count is lost.
static void first_counts() {
    Numbers numbers;
    MUST(numbers.open({30000}) == Status::ok);
    std::atomic<uint64_t> begun{0}, sum{0};
    in_threads(2, [&](size_t) {
        for (uint64_t key = 0; key < 20000 / fewer; key++) {
            begun++;
            for (int spins = 0; begun < 2 * (key + 1); spins++) {
                spins > 1000 ? std::this_thread::yield() : void();
            }
            sum += numbers.update_or_insert(key, 1, [](uint64_t old) { return old + 1; }).value.value_or(0);
        }
    });
    MUST(sum == 3 * (20000 / fewer) && numbers.size() == 20000 / fewer);
}

// Threads whose calls are never repeated are held now and then. An erasure that returned held was not made, and one that returned ok was.
static void held() {
    Numbers numbers;
    MUST(numbers.open({1000, 1, 8, 0}) == Status::ok);
    const auto is_there = [&](uint64_t key) { return surely([&] { return numbers.get(key).status; }) == Status::ok; };
    in_threads(3, [&](size_t key) {
        for (uint64_t n = 0; n < 20000 / fewer; n++) {
            MUST(surely([&] { return numbers.insert_or_assign(key, 1).status; }) == Status::ok);
            const Status status = numbers.erase(key);
            MUST(status == Status::ok ? !is_there(key) : is_there(key) && (status == Status::held || status == Status::busy));
        }
    });
    MUST(numbers.size() == uint64_t(is_there(0)) + is_there(1) + is_there(2));
}

// A hash by which all keys have one number in the index, and each has a check word of its own.
struct Meeting {
    std::shared_ptr<std::atomic<uint64_t>> first_seed = std::make_shared<std::atomic<uint64_t>>(0);
    uint64_t operator()(const uint64_t &key, uint64_t seed) const noexcept {
        uint64_t none = 0;
        first_seed->compare_exchange_strong(none, seed);
        return *first_seed == seed ? 0 : key;
    }
};

// One thread erases a key while another puts a second key over it, under the same number.
static void erasures_of_another_key() {
    map<uint64_t, uint64_t, Meeting> meeting;
    MUST(meeting.open({100, 1, 8}) == Status::ok && meeting.insert(1, 1).status == Status::ok);
    std::atomic<int> lost{0};
    std::atomic<bool> ends{false};
    in_threads(2, [&](size_t thread) {
        for (uint64_t n = 0; thread == 0 && n < 20000 / fewer; n++) {
            MUST(meeting.insert_or_assign(1, 1).status == Status::ok && meeting.insert_or_assign(2, 2).status == Status::ok);
            lost += !meeting.contains(2);
        }
        for (; thread == 1 && !ends; std::this_thread::yield()) {
            static_cast<void>(meeting.erase(1));
        }
        ends = true;
    });
    MUST(lost == 0);
}

// An object of a thread whose destructor calls the map: before the thread's passes are given back, or after.
struct AtEnd {
    Numbers *numbers = nullptr;
    uint64_t key = 0;
    ~AtEnd() { MUST(numbers == nullptr || numbers->insert(key, key).status == Status::ok); }
};

static void at_the_end(Numbers &numbers, uint64_t key, bool call_first) {
    MUST(!call_first || !numbers.contains(key));
    static thread_local AtEnd last;
    last.numbers = &numbers;
    last.key = key;
    MUST(call_first || !numbers.contains(key));
}

static void ends_of_threads() {
    Numbers numbers;
    MUST(numbers.open({1000, 1, 2}) == Status::ok);
    for (uint64_t key = 0; key < 40; key++) {
        std::thread(at_the_end, std::ref(numbers), key, key % 2 == 0).join();
        MUST(numbers.contains(key) && numbers.size() == key + 1);
    }
}

// A thread outlives maps that it called, and goes on with others.
static void ends_of_maps() {
    auto first = std::make_unique<Numbers>();
    MUST(first->open({100}) == Status::ok);
    std::atomic<int> step{0};
    std::thread longer([&] {
        MUST(first->insert(1, 1).status == Status::ok);
        step = 1;
        while (step != 2) {
            std::this_thread::yield();
        }
        for (uint64_t n = 0; n < 100; n++) {
            Numbers one, other;
            MUST(one.open({10, 1, 2}) == Status::ok && other.open({10, 1, 2}) == Status::ok);
            MUST(one.insert(1, n).status == Status::ok && other.insert(2, n).status == Status::ok);
            MUST(one.find(1) == n && !one.find(2) && other.find(2) == n && !other.find(1));
        }
    });
    while (step != 1) {
        std::this_thread::yield();
    }
    MUST(first->size() == 1 && first->find(1) == 1u);
    first.reset();
    step = 2;
    longer.join();
}

// It ends after main's thread has given its passes back.
static Numbers lasting;
static struct Checked {
    ~Checked() {
        if (lasting.find(1) != 1u || lasting.insert(2, 2).status != Status::ok) {
            _exit(1);
        }
    }
} checked;

int main(int argc, char **argv) {
    fewer = argc > 1 ? std::strtoull(argv[1], nullptr, 10) : 1;
    alarm(argc > 1 ? 240 : 100); // so that a call which never ends fails the test
    passes();
    passes_in_any_order();
    passes_at_the_end();
    passes_of_many_threads();
    passes_of_many_maps();
    shared_calls();
    values(8);
    values(2);
    updates(8);
    updates(1);
    held();
    erasures_of_another_key();
    first_counts();
    ends_of_threads();
    ends_of_maps();
    MUST(lasting.open({10}) == Status::ok && lasting.insert(1, 1).status == Status::ok);
    return outcome("map_threads");
}
