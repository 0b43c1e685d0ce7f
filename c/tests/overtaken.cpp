// Calls of a map that other threads overtake. No other thread is needed: functions stand in for some calls of the index.
#include "stand_ins.hpp"

using cefrodil::Status;

// An erasure that is overtaken each time says so, and the key is still there.
static void overtaken_erasures() {
    cefrodil::map<int, int> map;
    MUST(map.open({100, 1, 8, 5}) == Status::ok && map.insert(1, 10).status == Status::ok);
    overtaken = 6;
    MUST(map.erase(1) == Status::changed && overtaken == 0 && map.find(1) == 10 && map.size() == 1);
    overtaken = 5;
    MUST(map.erase(1) == Status::ok && overtaken == 0 && !map.find(1) && map.size() == 0);
}

// A key that another thread removes first is absent, and nothing brings it back.
static void overtaken_by_removals() {
    cefrodil::map<int, int> map;
    const auto never = [](int old) { return old + 1; };
    MUST(map.open({100, 1, 8, 5}) == Status::ok && map.insert(1, 10).status == Status::ok);
    // The other thread counts its removal itself.
    MUST(map.insert(2, 20).status == Status::ok);
    removed_before_condition = 1;
    MUST(map.erase(1) == Status::absent && removed_before_condition == 0 && !map.find(1) && map.size() == 2);
    MUST(map.insert(1, 10).status == Status::ok);
    removed_before_condition = 1;
    const auto updated = map.update(1, never);
    MUST(updated.status == Status::absent && !updated.value && removed_before_condition == 0 && !map.find(1));
    MUST(map.insert(1, 10).status == Status::ok);
    removed_before_condition = 1;
    const auto first = map.update_or_insert(1, 7, never);
    MUST(first.status == Status::ok && first.value == 7 && removed_before_condition == 0 && map.find(1) == 7);
}

// What another thread puts right before the put of a computed or a first value stays.
static void overtaken_first_values() {
    cefrodil::map<int, int> map;
    MUST(map.open({100}) == Status::ok);
    put_before = 1;
    const auto computed = map.find_or_compute(1, [] { return 10; });
    MUST(computed.status == Status::present && computed.value == 10 && computed.computed && put_before == 0 && map.find(1) == 99);
    put_before = 1;
    MUST(map.insert(2, 20).status == Status::present && put_before == 0 && map.find(2) == 99);
    put_before = 1;
    MUST(map.update_or_insert(3, 30, [](int old) { return old + 1; }).value == 100 && put_before == 0 && map.find(3) == 100);
}

// A hash by which all keys have one number in the index.
struct Meeting {
    cefrodil::HashPair operator()(const int &key, const cefrodil::HashSecret &) const noexcept { return {7, uint64_t(unsigned(key))}; }
};

// A put on the condition that the entry is still the same is repeated if it is not: that of an update, and that over another key's entry.
static void overtaken_puts_on_a_condition() {
    cefrodil::map<int, int, Meeting> map;
    MUST(map.open({100, 1, 8, 5}) == Status::ok && map.insert(1, 10).status == Status::ok);
    int calls = 0;
    const auto one_more = [&](int old) { return calls++, old + 1; };
    overtaken_puts = 5;
    MUST(map.update(1, one_more).value == 11 && calls == 6 && overtaken_puts == 0);
    overtaken_puts = 6;
    MUST(map.update(1, one_more).status == Status::changed && calls == 12 && overtaken_puts == 0 && map.find(1) == 11);
    overtaken_puts = 6;
    MUST(map.insert(2, 20).status == Status::changed && overtaken_puts == 0 && map.find(1) == 11 && !map.find(2));
    overtaken_puts = 5;
    const auto inserted = map.insert(2, 20);
    MUST(inserted.status == Status::ok && inserted.evicted && overtaken_puts == 0 && map.find(2) == 20 && !map.find(1) && map.size() == 1);
}

// The other key's entry is removed before the put over it. An insert that may not try again says `changed`, and another one finds the place free.
static void overtaken_puts_over_another_key() {
    cefrodil::map<int, int, Meeting> once, map;
    MUST(once.open({100, 1, 8, 0}) == Status::ok && once.insert(1, 10).status == Status::ok);
    removed_before_condition = 1;
    MUST(once.insert(2, 20).status == Status::changed && removed_before_condition == 0 && !once.find(1) && !once.find(2));
    MUST(once.insert(1, 10).status == Status::ok);
    removed_before_condition = 1;
    const auto first = once.update_or_insert(2, 20, [](int old) { return old; });
    MUST(first.status == Status::changed && !first.value && !once.find(2));
    MUST(map.open({100, 1, 8, 5}) == Status::ok && map.insert(1, 10).status == Status::ok);
    removed_before_condition = 1;
    const auto inserted = map.insert(2, 20);
    MUST(inserted.status == Status::ok && !inserted.renewed && !inserted.evicted && map.find(2) == 20);
}

// `clear` goes on if another thread removes a key first.
static void overtaken_clear() {
    cefrodil::map<int, int> map;
    MUST(map.open({100, 1}) == Status::ok);
    for (int key = 0; key < 3; key++) {
        MUST(map.insert(key, key).status == Status::ok);
    }
    disturb(0);
    removed_before = 1;
    MUST(map.clear() == Status::ok && made == 4 && removed_before == 0 && !map.contains(0) && !map.contains(1) && !map.contains(2));
}

int main() {
    overtaken_erasures();
    overtaken_by_removals();
    overtaken_first_values();
    overtaken_puts_on_a_condition();
    overtaken_puts_over_another_key();
    overtaken_clear();
    return outcome("overtaken");
}
