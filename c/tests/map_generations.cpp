// A write of a map beside the next generation: another thread begins that, and puts the key, before a call of the index that the write makes. The put
// of a key has its lock, so the other put is held, or comes before or after it.
#include "cefrodil.h"
#include "must.h"
#include <functional>
#include <thread>
#include <utility>

// How many calls of the index this thread makes, and what it does before one of them: after so many others.
static thread_local uint32_t made = 0, before = 0;
static thread_local std::function<void()> act;

static void call_begins() {
    made++;
    if (act && before-- == 0) {
        std::exchange(act, nullptr)();
    }
}
static cefrodil_status first_get_or_turn(cefrodil_handle *handle, uint64_t key, uint64_t *value, size_t words, cefrodil_reply *reply) {
    call_begins();
    return cefrodil_get_or_turn_of_width(handle, key, value, words, reply);
}
static cefrodil_status first_put(cefrodil_handle *handle, uint64_t key, const uint64_t *value, size_t words, cefrodil_reply *reply) {
    call_begins();
    return cefrodil_put_of_width(handle, key, value, words, reply);
}
static cefrodil_status first_put_if(cefrodil_handle *handle, uint64_t key, uint64_t since, const uint64_t *value, size_t words, cefrodil_reply *reply) {
    call_begins();
    return cefrodil_put_if(handle, key, since, value, words, reply);
}
static cefrodil_status first_put_if_absent(cefrodil_handle *handle, uint64_t key, const uint64_t *value, size_t words, cefrodil_reply *reply) {
    call_begins();
    return cefrodil_put_if_absent(handle, key, value, words, reply);
}
#define cefrodil_get_or_turn_of_width first_get_or_turn
#define cefrodil_put_of_width first_put
#define cefrodil_put_if first_put_if
#define cefrodil_put_if_absent first_put_if_absent
#include "cefrodil/inside/table.hpp"

using cefrodil::Status;
using Table = cefrodil::inside::Table<uint64_t>;

static const cefrodil::inside::Identity key{1, 1};

static uint64_t found(Table &table) {
    Table::Words packed;
    return table.find(key, packed) == Status::ok ? *Table::value_of(packed) : 0;
}

// What the other thread does, before a call of this one: after so many. Its put says this.
static Status other = Status::closed;
static void meet(Table &table, uint32_t calls) {
    before = calls;
    act = [&table] {
        std::thread([&table] {
            table.generations.begin_next();
            other = table.put(key, 20).status;
        }).join();
    };
}

static void a_put(Table &table) {
    MUST(table.put(key, 10).status == Status::ok && found(table) == 10);
    table.generations.begin_next();
    MUST(found(table) == 0 && table.put(key, 11).status == Status::ok && found(table) == 11);
    meet(table, 0);
    MUST(table.put(key, 12).status == Status::ok && other == Status::held && found(table) == 0);
}

// The first and the last of these calls is a put. The second one looks at what is there.
static void a_put_of_an_absent_key(Table &table) {
    made = 0;
    MUST(table.put_if_absent(key, 13).status == Status::ok && made == 3);
    const uint64_t inserted[] = {14, 20, 0};
    for (uint32_t others = 0; others < 3; others++) {
        table.generations.begin_next();
        meet(table, others);
        const Status own = table.put_if_absent(key, 14).status;
        MUST(own == (others == 1 ? Status::present : Status::ok) && other == (others == 1 ? Status::ok : Status::held));
        MUST(found(table) == inserted[others]);
    }
}

// Here a look is the first one.
static void an_update(Table &table) {
    const uint64_t updated[] = {21, 15, 21, 0}, first = 15;
    for (uint32_t others = 0; others < 4; others++) {
        table.generations.begin_next();
        meet(table, others);
        const auto own = table.update(key, &first, [](uint64_t old) { return old + 1; });
        MUST(own.status == Status::ok && own.value == (others % 2 == 0 ? 21u : 15u) && found(table) == updated[others]);
    }
}

int main() {
    Table table;
    MUST(table.open(40, 1, 64, 5) == Status::ok);
    a_put(table);
    a_put_of_an_absent_key(table);
    an_update(table);
    return outcome("map_generations");
}
