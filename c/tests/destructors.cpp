// A value's destructor calls the map.
#include "cefrodil_object_map.hpp"
#include "must.h"
#include <utility>

using cefrodil::Status;

struct Value;
using Map = cefrodil::object_map<int, Value>;
static Map *map = nullptr;

// The next destructor of a value that is too heavy computes the key anew, and this is what it got.
static bool is_armed = false;
static int computed = 0;

struct Value {
    int weight;
    explicit Value(int its_weight) : weight(its_weight) {}
    Value(const Value &other) : weight(other.weight) {}
    Value &operator=(const Value &) = default;
    ~Value() {
        if (is_armed && weight == 7) {
            is_armed = false;
            compute_anew();
        }
    }

  private:
    static void compute_anew();
};

void Value::compute_anew() {
    computed = map->find_or_compute(1, [] { return Value(2); }).value.weight;
}

// The value was computed and is too heavy. So no call may wait for its flight any more.
static void of_a_heavy_value() {
    Map opened;
    map = &opened;
    Map::Rules rules;
    rules.weigher = [](int, const Value &value) { return static_cast<uint64_t>(value.weight); };
    rules.most_weight = 5;
    MUST(opened.open({100}, rules) == Status::ok);
    const auto compute = [] {
        struct Arms {
            ~Arms() { is_armed = true; }
        } const arms;
        return Value(7);
    };
    MUST(opened.find_or_compute(1, compute).status == Status::too_heavy && computed == 2);
    MUST(opened.look(1, [](const Value &value) { MUST(value.weight == 2); }) == Status::ok);
}

// Removes the next one of a chain, and has it freed.
struct Link {
    using Links = cefrodil::object_map<int, Link>;
    Links *links;
    int next;
    Link(Links *its_links, int its_next) : links(its_links), next(its_next) {}
    Link(Link &&other) noexcept : links(std::exchange(other.links, nullptr)), next(other.next) {}
    ~Link() {
        if (links != nullptr) {
            static_cast<void>(links->erase(next));
            static_cast<void>(links->free_unused());
        }
    }
};

// All links of a chain need the stack of one of them: in one map, or by turns in two.
static void of_a_chain(bool is_in_two) {
    constexpr int links = 100000;
    Link::Links one, two;
    MUST(one.open({4 * links}) == Status::ok && two.open({4 * links}) == Status::ok);
    for (int n = 0; n < links; n++) {
        MUST(one.insert(n, is_in_two ? Link(&two, n) : Link(&one, n + 1)).status == Status::ok);
        MUST(!is_in_two || two.insert(n, Link(&one, n + 1)).status == Status::ok);
    }
    MUST(one.erase(0) == Status::ok && one.free_unused() == links);
    MUST(one.size() == 0 && two.size() == 0 && one.waiting() == 0 && two.waiting() == 0);
}

// What a destructor has freed comes beside what its call has yet to free: none of both is lost.
static void of_several_at_once() {
    Link::Links links;
    MUST(links.open({100}) == Status::ok);
    for (int n = 0; n < 4; n++) {
        MUST(links.insert(n, Link(&links, 10 + n)).status == Status::ok && links.insert(10 + n, Link(nullptr, 0)).status == Status::ok);
    }
    for (int n = 0; n < 4; n++) {
        MUST(links.erase(n) == Status::ok);
    }
    MUST(links.waiting() == 4 && links.meter().counts().waiting == 4 && links.size() == 4);
    // Each destructor removes one more.
    MUST(links.free_unused() == 8 && links.size() == 0 && links.waiting() == 0 && links.meter().counts().waiting == 0);
}

int main() {
    of_a_heavy_value();
    of_several_at_once();
    of_a_chain(false);
    of_a_chain(true);
    return outcome("destructors");
}
