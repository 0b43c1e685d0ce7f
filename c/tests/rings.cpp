// Functions that ask for each other's keys, in rings of threads and of maps: one call of a ring computes for itself alone, and the others wait. A call
// that waits for no ring gets the one value that was computed.
#include "cefrodil.h"
#include <functional>

// What a thread does before each lookup of a key.
static thread_local std::function<void()> before_lookup;
static cefrodil_status noted_get_or_turn(cefrodil_handle *handle, uint64_t key, uint64_t *value, size_t words, cefrodil_reply *reply) {
    if (before_lookup) {
        before_lookup();
    }
    return cefrodil_get_or_turn_of_width(handle, key, value, words, reply);
}
#define cefrodil_get_or_turn_of_width noted_get_or_turn
#include "cefrodil_object_map.hpp"
#include "must.h"
#include <algorithm>
#include <atomic>
#include <sys/wait.h>
#include <thread>
#include <unistd.h>
#include <vector>

using cefrodil::Status;
using Function = std::function<uint64_t()>;

// What a map answers, and how it is asked.
struct Answer {
    Status status;
    uint64_t value;
    bool computed;
};
using Ask = std::function<Answer(uint64_t, const Function &)>;

static cefrodil::map<uint64_t, uint64_t> numbers;
static cefrodil::object_map<uint64_t, uint64_t> objects;

static Answer of_numbers(uint64_t key, const Function &function) {
    const auto answer = numbers.find_or_compute(key, function);
    return {answer.status, answer.value, answer.computed};
}
static Answer of_objects(uint64_t key, const Function &function) {
    const auto answer = objects.find_or_compute(key, function);
    return {answer.status, answer.value, answer.computed};
}
static Answer of_pins(uint64_t key, const Function &function) {
    const auto answer = objects.pin_or_compute(key, function);
    return {answer.status, *answer.value, answer.computed};
}

static void clear() { MUST(numbers.clear() == Status::ok && objects.clear() == Status::ok); }

// How many threads wait.
static int waits() {
    auto &process = cefrodil::inside::Threads::of_process();
    const std::lock_guard<std::mutex> guard(process.lock);
    int count = 0;
    for (const auto *wait = process.first_wait; wait != nullptr; wait = wait->next) {
        count++;
    }
    return count;
}
static void until(const std::function<bool()> &is_so) {
    while (!is_so()) {
        std::this_thread::yield();
    }
}
static void run(const std::vector<std::function<void()>> &works) {
    std::vector<std::thread> threads;
    for (const auto &work : works) {
        threads.emplace_back(work);
    }
    std::for_each(threads.begin(), threads.end(), [](std::thread &thread) { thread.join(); });
    MUST(waits() == 0);
}

// Each thread computes a key, and within that asks for the key of the next thread. The last one that asks computes 100 for itself.
static void ring(const std::vector<Ask> &asks) {
    const uint64_t size = asks.size();
    std::atomic<uint64_t> begun{0}, alone{0}, sum{0};
    std::vector<std::function<void()>> works;
    for (uint64_t n = 0; n < size; n++) {
        works.emplace_back([&, n] {
            const uint64_t next = (n + 1) % size;
            const Answer own = asks[n](n, [&] {
                begun++;
                until([&] { return begun == size; });
                const Answer asked = asks[next](next, [] { return uint64_t(100); });
                alone += asked.computed ? 1 : 0;
                MUST(asked.computed ? asked.status == Status::stale && asked.value == 100 : asked.status == Status::ok && asked.value > 100);
                return asked.value + 1;
            });
            MUST(own.status == Status::ok && own.computed);
            sum += own.value;
        });
    }
    run(works);
    MUST(alone == 1 && sum == 100 * size + size * (size + 1) / 2 && numbers.size() + objects.size() == size);
    clear();
}

// A thread that computes a key waits for a second one, and a third thread waits for both. Nobody asks back, so each gets the value that was computed.
static void chain(const Ask &first, const Ask &second) {
    std::atomic<bool> is_first{false}, is_second{false};
    const auto never = [] { return uint64_t(0); };
    run({[&] {
             MUST(first(1, [&] {
                      is_first = true;
                      until([] { return waits() == 3; });
                      return uint64_t(10);
                  }).computed);
         },
         [&] {
             until([&] { return bool(is_first); });
             MUST(second(2, [&] {
                      is_second = true;
                      const Answer inner = first(1, never);
                      MUST(inner.status == Status::ok && inner.value == 10 && !inner.computed);
                      return inner.value + 10;
                  }).computed);
         },
         [&] {
             until([&] { return bool(is_first); });
             const Answer answer = first(1, never);
             MUST(answer.status == Status::ok && answer.value == 10 && !answer.computed);
         },
         [&] {
             until([&] { return bool(is_second); });
             const Answer answer = second(2, never);
             MUST(answer.status == Status::ok && answer.value == 20 && !answer.computed);
         }});
    clear();
}

// A thread whose computation has ended asks at once for what the thread computes that waited for it. That one waits for it no more, so it is no ring.
static void asked_after_its_end(const Ask &first, const Ask &second) {
    for (uint64_t round = 0; round < 200; round++) {
        std::atomic<bool> is_first{false};
        run({[&] {
                 MUST(first(1, [&] {
                          is_first = true;
                          until([] { return waits() == 1; });
                          return uint64_t(10);
                      }).computed);
                 const Answer answer = second(2, [] { return uint64_t(100); });
                 MUST(answer.status == Status::ok && answer.value == 11 && !answer.computed);
             },
             [&] {
                 until([&] { return bool(is_first); });
                 MUST(second(2, [&] { return first(1, [] { return uint64_t(0); }).value + 1; }).computed);
             }});
        clear();
    }
}

// A function that throws ends the waits for it, and one of those that waited computes.
static void a_throw(const Ask &ask) {
    std::atomic<bool> is_first{false};
    std::atomic<int> computed{0};
    const auto other = [&] {
        until([&] { return bool(is_first); });
        MUST(ask(1, [&] { return computed++, uint64_t(7); }).value == 7);
    };
    run({[&] {
             try {
                 static_cast<void>(ask(1, [&]() -> uint64_t {
                     is_first = true;
                     until([] { return waits() == 2; });
                     throw 1;
                 }));
                 MUST(false);
             } catch (int) {
             }
         },
         other, other});
    MUST(computed == 1);
    clear();
}

// In a forked child nobody waits, whoever waited in its parent.
static void a_child() {
    std::atomic<bool> has_begun{false};
    run({[&] {
             const auto function = [&] {
                 has_begun = true;
                 until([] { return waits() == 1; });
                 const pid_t child = fork();
                 if (child == 0) {
                     _exit(waits());
                 }
                 int status = 1;
                 MUST(waitpid(child, &status, 0) == child && status == 0);
                 return uint64_t(7);
             };
             MUST(of_numbers(1, function).value == 7);
         },
         [&] {
             until([&] { return bool(has_begun); });
             MUST(!of_numbers(1, [] { return uint64_t(8); }).computed);
         }});
    clear();
}

// A call of a map that was opened so waits for nobody, or until the other call has its value. If there is none, it computes.
static void most_wait(std::chrono::nanoseconds most, bool waits_on, bool throws) {
    cefrodil::MapOptions options{100};
    options.most_wait = most;
    cefrodil::map<uint64_t, uint64_t> values;
    cefrodil::object_map<uint64_t, uint64_t> all;
    MUST(values.open(options) == Status::ok && all.open(options) == Status::ok);
    const auto asks = [&](auto &map) {
        std::atomic<bool> is_first{false}, has_asked{false};
        run({[&] {
                 try {
                     MUST(map.find_or_compute(1, [&]() -> uint64_t {
                                 is_first = true;
                                 until([&] { return waits_on ? waits() == 1 : bool(has_asked); });
                                 return throws ? throw 1 : 10;
                             }).value == 10);
                 } catch (int) {
                 }
             },
             [&] {
                 until([&] { return bool(is_first); });
                 const auto answer = map.find_or_compute(1, [] { return uint64_t(20); });
                 has_asked = true;
                 MUST(answer.computed == (!waits_on || throws) && answer.value == (answer.computed ? 20U : 10U));
                 MUST(answer.status == (waits_on ? Status::ok : Status::stale));
             }});
        MUST(map.find(1) == (throws ? std::optional<uint64_t>(waits_on ? std::optional<uint64_t>(20) : std::nullopt) : 10));
    };
    asks(values);
    asks(all);
}

// Each computation fails once the call waits for it, and the next one has begun before the call looks again. So no wait is long, but all together are.
template <class Map> static void many_waits() {
    cefrodil::MapOptions options{100};
    options.most_wait = std::chrono::milliseconds(100);
    Map map;
    MUST(map.open(options) == Status::ok);
    std::atomic<uint64_t> begun{0};
    std::thread computing;
    // What was begun before fails now at the latest.
    const auto begin = [&](bool another) {
        const uint64_t number = ++begun;
        computing.joinable() ? computing.join() : void();
        if (!another) {
            return;
        }
        std::atomic<bool> has_begun{false};
        computing = std::thread([&, number] {
            try {
                static_cast<void>(map.find_or_compute(1, [&]() -> uint64_t {
                    has_begun = true;
                    until([&] { return waits() == 1 || begun != number; });
                    throw 1;
                }));
            } catch (int) {
            }
        });
        until([&] { return bool(has_begun); });
    };
    before_lookup = [&] { begin(begun < 20000); };
    const auto answer = map.find_or_compute(1, [] { return uint64_t(10); });
    before_lookup = nullptr;
    begin(false);
    MUST(answer.status == Status::stale && answer.value == 10 && !map.find(1));
}

int main() {
    // Threads that wait for each other wait for ever.
    alarm(240);
    MUST(numbers.open({1000}) == Status::ok && objects.open({1000}) == Status::ok);
    for (int round = 0; round < 50; round++) {
        ring({of_numbers, of_numbers});
        ring({of_objects, of_objects});
        ring({of_pins, of_pins});
        ring({of_numbers, of_objects});
        ring({of_numbers, of_pins, of_objects});
        ring({of_numbers, of_numbers, of_numbers, of_numbers, of_objects});
    }
    chain(of_numbers, of_numbers);
    chain(of_objects, of_pins);
    chain(of_pins, of_numbers);
    asked_after_its_end(of_numbers, of_objects);
    asked_after_its_end(of_pins, of_numbers);
    a_throw(of_numbers);
    a_throw(of_objects);
    a_child();
    for (const bool throws : {false, true}) {
        most_wait(std::chrono::nanoseconds(0), false, throws);
        most_wait(std::chrono::hours(1), true, throws);
        most_wait(cefrodil::forever, true, throws);
    }
    many_waits<cefrodil::map<uint64_t, uint64_t>>();
    many_waits<cefrodil::object_map<uint64_t, uint64_t>>();
    return outcome("rings");
}
