// A guard holds every turn, in C++: it is lent a handle, or owns it.
#include "cefrodil.hpp"
#include "must.h"
#include <memory>
#include <utility>

using namespace cefrodil;

static std::vector<Handle<1>> handles;

static void opens(uint32_t shards) {
    const auto shape = shape_for_items(1000, shards);
    MUST(shape && open(*shape, shards, 2, handles) == Status::ok);
}

static void a_holder_writes_and_others_are_held() {
    Handle<1> &one = handles[0], &other = handles[1];
    Writing<1> writing;
    MUST(!writing.holds() && one.hold(writing) == Status::ok && writing.holds());
    MUST(!one.is_open() && other.hold(writing) == Status::in_use && writing.own(std::move(other)) == Status::in_use && other.is_open());
    for (uint64_t key = 0; key < 64; key++) {
        MUST(writing.put(key, {10 * key}).status == Status::ok);
        MUST(other.try_put(key, {0}).status == Status::held);
    }
    Writing<1> another;
    MUST(other.hold(another) == Status::held && !another.holds());
    const std::array<uint64_t, 1> seventy = {70};
    MUST(writing.get(7).value == seventy && other.get(7).value == seventy);
    uint64_t number = 0;
    std::vector<uint64_t> entries;
    MUST(writing.len(number) == Status::ok && number == 64);
    MUST(writing.moment(number) == Status::ok && number == 64);
    MUST(writing.entries(entries) == Status::ok && entries.size() == 128);
    // A holder that moves still holds; one that ends gives the turns back.
    another = std::move(writing);
    MUST(!writing.holds() && another.holds() && other.try_remove(7).status == Status::held);
    // It owns no handle that it could return.
    MUST(!another.disown().is_open() && another.holds() && !one.is_open());
    another.end();
    MUST(one.is_open() && other.try_remove(7).status == Status::ok && one.get(7).status == Status::absent);
}

// So many tries are made, at least one, and each that does not win is counted.
static void a_hold_is_tried_again() {
    Writing<1> writing, another;
    MUST(handles[0].hold(writing) == Status::ok);
    const Meter meter = handles[1].meter();
    for (uint32_t tries = 0; tries <= 5; tries++) {
        const uint64_t held = meter.counts().held;
        MUST(handles[1].hold_within(tries, another) == Status::held && !another.holds());
        MUST(meter.counts().held == held + (tries == 0 ? 1 : tries));
    }
    MUST(handles[1].hold_within(3, writing) == Status::in_use);
    writing.end();
    const uint64_t held = meter.counts().held;
    MUST(handles[1].hold_within(3, another) == Status::ok && another.holds() && meter.counts().held == held);
}

static void it_ends_with_its_scope() {
    {
        Writing<1> writing;
        MUST(handles[0].hold(writing) == Status::ok);
    }
    MUST(handles[1].try_put(1, {1}).status == Status::ok && handles[0].try_put(2, {2}).status == Status::ok);
}

// A guard that takes the place of another ends that one.
static void one_takes_the_place_of_another() {
    std::vector<Handle<1>> others;
    MUST(open(*shape_for_items(100), 1, 2, others) == Status::ok);
    Writing<1> writing, another;
    MUST(handles[0].hold(writing) == Status::ok && others[0].hold(another) == Status::ok);
    writing = std::move(another);
    MUST(writing.holds() && handles[0].is_open() && handles[1].try_put(1, {1}).status == Status::ok);
    MUST(!others[0].is_open() && others[1].try_put(1, {1}).status == Status::held);
    Writing<1> &same = writing;
    writing = std::move(same);
    MUST(writing.holds() && others[1].try_put(1, {1}).status == Status::held);
    writing = {};
    MUST(others[0].try_put(1, {1}).status == Status::ok);
}

// A guard that owns its handle moves freely. In the end it returns the handle, which counts as before.
static void a_handle_is_owned() {
    Handle<1> &other = handles[1];
    auto owner = std::make_unique<Writing<1>>();
    {
        Handle<1> one = std::move(handles[0]);
        MUST(owner->own(std::move(one)) == Status::ok && owner->holds() && !one.is_open());
    }
    Writing<1> writing = std::move(*owner);
    owner.reset();
    MUST(writing.holds() && writing.put(3, {30}).status == Status::ok && other.try_put(3, {31}).status == Status::held);
    const uint64_t hits = other.meter().counts().hits;
    handles[0] = writing.disown();
    MUST(!writing.holds() && handles[0].is_open() && !writing.disown().is_open());
    MUST(handles[0].get(3).status == Status::ok && handles[0].meter().counts().hits == hits + 1);
    MUST(other.try_put(3, {31}).status == Status::ok && handles[0].try_put(3, {32}).status == Status::ok);
}

// A handle that isn't owned stays as it was.
static void a_handle_is_not_owned() {
    Writing<1> writing, another;
    MUST(handles[0].hold(writing) == Status::ok && another.own(std::move(handles[1])) == Status::held && !another.holds());
    MUST(handles[1].is_open() && handles[1].try_put(1, {1}).status == Status::held);
    writing.end();
    MUST(handles[1].try_put(1, {1}).status == Status::ok && another.own(Handle<1>()) == Status::closed && !another.holds());
}

// The turns come back also if the handle goes.
static void an_owned_handle_is_closed() {
    std::vector<Handle<1>> some;
    MUST(open(*shape_for_items(100, 4), 4, 3, some) == Status::ok);
    for (int by_end = 0; by_end < 2; by_end++) {
        Writing<1> writing;
        MUST(writing.own(std::move(some[by_end])) == Status::ok && some[2].try_put(1, {1}).status == Status::held);
        if (by_end == 1) {
            writing.end();
            MUST(!writing.holds() && some[2].try_put(1, {1}).status == Status::ok);
        }
    }
    MUST(some[2].try_put(1, {1}).status == Status::ok && !some[0].is_open() && !some[1].is_open());
}

// A handle asks for the number of changes in a moment that it holds.
static void a_handle_asks_for_the_moment() {
    std::vector<Handle<1>> some;
    MUST(open(*shape_for_items(100, 4), 4, 2, some) == Status::ok);
    uint64_t moment = 9;
    MUST(some[0].try_moment(moment) == Status::ok && moment == 0);
    for (uint64_t key = 0; key < 50; key++) {
        MUST(some[1].try_put(key, {key}).status == Status::ok);
    }
    MUST(some[0].try_moment(moment) == Status::ok && moment == 50 && some[0].is_open() && some[1].try_remove(7).status == Status::ok);
    Writing<1> writing;
    MUST(some[1].hold(writing) == Status::ok && some[0].try_moment(moment) == Status::held && moment == 50 && some[0].is_open());
    MUST(some[0].meter().counts().held == 1);
    some[0].close();
    MUST(some[0].try_moment(moment) == Status::closed && moment == 50);
}

static void a_guard_without_turns() {
    Writing<1> writing;
    writing.end();
    MUST(!writing.holds() && !writing.disown().is_open());
}

int main() {
    a_guard_without_turns();
    for (uint32_t shards : {1, 4}) {
        opens(shards);
        a_holder_writes_and_others_are_held();
        a_hold_is_tried_again();
        it_ends_with_its_scope();
        one_takes_the_place_of_another();
        a_handle_is_owned();
        a_handle_is_not_owned();
    }
    an_owned_handle_is_closed();
    a_handle_asks_for_the_moment();
    return outcome("holding in C++");
}
