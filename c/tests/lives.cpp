// Entries of a map of objects end. Argument: by how much less to do.
#include "ending_entries.hpp"
#include <algorithm>
#include <cstdlib>
#include <map>

using cefrodil::Left;
using Numbers = cefrodil::object_map<uint64_t, uint64_t>;

static Numbers::Rules rules_of(const cefrodil::Lives &lives) {
    Numbers::Rules rules;
    rules.lives = lives;
    return rules;
}

// The listener hears that what gives way had expired, and no function sees it.
static void expired() {
    now = 1000;
    std::vector<std::pair<uint64_t, Left>> heard;
    Numbers numbers;
    Numbers::Rules rules = rules_of(living(nanoseconds(100)));
    rules.listener = [&](const uint64_t &key, const uint64_t &, Left why) { heard.emplace_back(key, why); };
    MUST(numbers.open({1000}, rules) == Status::ok && numbers.insert(1, 10).status == Status::ok && numbers.insert(2, 20).status == Status::ok);
    now = 1099;
    MUST(numbers.insert(1, 11).status == Status::present && numbers.update(2, next) == Status::ok);
    now = 1100;
    const auto see = [](uint64_t) { MUST(false); };
    MUST(numbers.look(1, see) == Status::absent && numbers.update(2, next) == Status::absent && numbers.insert(1, 12).status == Status::ok);
    MUST(numbers.erase(2, see) == Status::absent && numbers.size() == 1 && numbers.insert_or_assign(1, 13).renewed);
    now = 1200;
    MUST(numbers.insert_or_assign(1, 14).status == Status::ok && numbers.free_unused() > 0);
    const std::vector<std::pair<uint64_t, Left>> expected{{2, Left::replaced}, {1, Left::expired}, {2, Left::expired}, {1, Left::replaced}, {1, Left::expired}};
    MUST(heard == expected);
}

// What has expired weighs until it has left.
static void weighed() {
    now = 0;
    Numbers numbers;
    Numbers::Rules rules = rules_of(living(nanoseconds(10)));
    rules.weigher = [](const uint64_t &, const uint64_t &value) { return value; };
    rules.most_weight = 100;
    MUST(numbers.open({1000}, rules) == Status::ok && numbers.insert(1, 60).status == Status::ok && numbers.insert(2, 30).status == Status::ok);
    now = 10;
    MUST(!numbers.find(1) && numbers.weight() == 90 && numbers.insert(1, 50).status == Status::ok && numbers.weight() == 80);
    MUST(numbers.erase_expired() == Status::ok && numbers.weight() == 50 && numbers.find(1) == 50u && numbers.size() == 1);
}

// All keys have few numbers in the index.
struct Meeting {
    cefrodil::HashPair operator()(const uint64_t &key, const cefrodil::HashSecret &) const noexcept { return {key % 7, key}; }
};

// The listener keeps a model of what is there, with its deadline.
template <class Hash> static void agrees_with_a_model(uint64_t calls) {
    struct Known {
        uint64_t value;
        int64_t deadline;
    };
    now = 0;
    std::map<uint64_t, Known> model;
    uint64_t drawn = 1, expired = 0;
    cefrodil::object_map<uint64_t, uint64_t, Hash> map;
    Numbers::Rules rules = rules_of(living(nanoseconds(50)));
    rules.listener = [&](const uint64_t &key, const uint64_t &value, Left why) {
        MUST(model.count(key) == 1 && model[key].value == value && (why == Left::expired) == (now >= model[key].deadline));
        model.erase(key);
        expired += why == Left::expired;
    };
    MUST(map.open({100, 1}, rules) == Status::ok);
    for (uint64_t n = 1; n <= calls; n++) {
        now += int64_t(next_random(drawn) % 3);
        const uint64_t key = next_random(drawn) % 60;
        const auto life = nanoseconds(next_random(drawn) % 100);
        const bool is_there = model.count(key) == 1 && model[key].deadline > now;
        const int64_t kept = is_there ? model[key].deadline : 0;
        MUST(map.find(key) == (is_there ? std::optional(model[key].value) : std::nullopt));
        Status status = Status::absent;
        int64_t deadline = now + 50;
        switch (next_random(drawn) % 6) {
        case 0: status = map.insert(key, uint64_t(n)).status; MUST((status == Status::present) == is_there); break;
        case 1: status = map.insert_or_assign(key, uint64_t(n)).status; break;
        case 2: status = map.insert_for(key, uint64_t(n), life).status; deadline = now + life.count(); break;
        case 3: status = map.update(key, [&](uint64_t) { return n; }); deadline = kept; MUST((status == Status::ok) == is_there); break;
        case 4: {
            const auto answer = map.find_or_compute(key, [&] { return n; });
            MUST(answer.computed == !is_there);
            status = answer.computed ? answer.status : Status::present;
            break;
        }
        default: MUST((map.erase(key) == Status::ok) == is_there);
        }
        if (status == Status::ok) {
            model[key] = {n, deadline};
        }
        MUST(map.size() == model.size());
    }
    MUST(expired > calls / 200);
}

// All keys have one number in the index.
struct OneNumber {
    cefrodil::HashPair operator()(const uint64_t &key, const cefrodil::HashSecret &) const noexcept { return {7, key}; }
};

// An erasure that finds another key's object under its number is no use of that.
static void erasures_of_another_key_are_no_use() {
    now = 0;
    cefrodil::object_map<uint64_t, uint64_t, OneNumber> numbers;
    MUST(opened(numbers, {1000}, living(forever, nanoseconds(100))) == Status::ok && numbers.insert(1, 10).status == Status::ok);
    now = 90;
    MUST(numbers.erase(2) == Status::absent && numbers.extract(3).status == Status::absent && numbers.peek(1).value == 10u);
    now = 100;
    MUST(!numbers.peek(1).value && !numbers.find(1));
}

int main(int argc, char **argv) {
    const uint64_t less = argc > 1 ? std::strtoull(argv[1], nullptr, 10) : 1;
    entries_end<Numbers>(3000 / less);
    erasures_of_another_key_are_no_use();
    expired();
    weighed();
    agrees_with_a_model<cefrodil::SipHash<uint64_t>>(30000 / less);
    agrees_with_a_model<Meeting>(30000 / less);
    return outcome("lives");
}
