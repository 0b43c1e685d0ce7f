// A fill whose value was read before its key was changed in the store is refused, and the cache does not return to the old value.
#include "cefrodil_filler.hpp"
#include "must.h"
#include <string>

using namespace cefrodil;

// A Filler takes memory when it is made, and never throws afterwards.
static_assert(noexcept(std::declval<Filler<1> &>().fill(1, Ticket(1), {1})) && noexcept(std::declval<Filler<1> &>().remove(1)));
static_assert(noexcept(std::declval<Filler<1> &>().put(1, {1})) && noexcept(std::declval<Filler<1> &>().writing()));
static_assert(noexcept(std::declval<Filler<1> &>().tickets()) && noexcept(std::declval<const Tickets &>().take()));
static_assert(std::is_nothrow_move_constructible_v<Filler<1>> && !std::is_copy_constructible_v<Filler<1>>);

// The second handle is the filler's.
static Filler<1> filler_of(size_t changes, std::vector<Handle<1>> &handles) {
    Writing<1> writing;
    MUST(open(*shape_for_items(100), 1, 2, handles) == Status::ok && writing.own(std::move(handles[1])) == Status::ok);
    return Filler<1>(std::move(writing), changes);
}

// One thread reads the store, another changes it and removes the key, and then the first has its value put.
static void lost_update() {
    std::vector<Handle<1>> handles;
    Filler<1> filler = filler_of(10, handles);
    const Tickets tickets = filler.tickets();
    uint64_t store = 10;
    MUST(handles[0].get(1).status == Status::absent);
    const Ticket ticket = tickets.take();
    const uint64_t read = store;
    store = 11;
    MUST(filler.remove(1).status == Status::absent);
    const Written late = filler.fill(1, ticket, {read});
    MUST(late.status == Status::stale && !late.evicted && late.at == 0 && late.since == 0 && !late.renewed);
    MUST(handles[0].get(1).status == Status::absent);
    // Who reads the store now has its value put, and finds it.
    const Written filled = filler.fill(1, tickets.take(), {store});
    MUST(filled.status == Status::ok && filled.at == 1 && (*handles[0].get(1).value)[0] == 11);
    // Who read it as well does not put it again.
    MUST(filler.fill(1, tickets.take(), {store}).status == Status::present);
}

// A new value that was put and is absent again is a change as well.
static void lost_put() {
    std::vector<Handle<1>> handles;
    Filler<1> filler = filler_of(10, handles);
    const Ticket ticket = filler.tickets().take();
    MUST(filler.put(1, {11}).status == Status::ok && (*handles[0].get(1).value)[0] == 11);
    MUST(filler.writing().remove(1).status == Status::ok && filler.fill(1, ticket, {10}).status == Status::stale);
    MUST(filler.fill(2, ticket, {20}).status == Status::ok && (*handles[0].get(2).value)[0] == 20);
    // What its guard does is no change of the store.
    MUST(filler.writing().remove(2).status == Status::ok && filler.fill(2, ticket, {20}).status == Status::ok);
}

// A new value that finds no place is a change of the store all the same. Both buckets of the nine keys are the same two, and no key may move.
static void refused_put() {
    const cefrodil_shape shape{uint64_t(1) << 62, 1024, 16, 1, 0, 2, CEFRODIL_MIX_NONE, CEFRODIL_POLICY_SCAN_RESISTANT};
    std::vector<Handle<1>> handles;
    Writing<1> writing;
    MUST(open(shape, 1, 2, handles) == Status::ok && writing.own(std::move(handles[1])) == Status::ok);
    for (uint64_t key = 0; key < 8; key++) {
        MUST(writing.put(1024 * key, {key}).status == Status::ok);
    }
    Filler<1> filler(std::move(writing), 10);
    const Ticket ticket = filler.tickets().take();
    MUST(filler.put(1024 * 8, {81}).status == Status::no_path && filler.writing().remove(0).status == Status::ok);
    MUST(filler.fill(1024 * 8, ticket, {80}).status == Status::stale && handles[0].get(1024 * 8).status == Status::absent);
    MUST(filler.fill(1024 * 8, filler.tickets().take(), {81}).status == Status::ok);
}

// `known` changes are known. A fill that is older than all of them is refused, whatever its key is.
static void known_changes(size_t changes, size_t known) {
    std::vector<Handle<1>> handles;
    Filler<1> filler = filler_of(changes, handles);
    const Ticket oldest = filler.tickets().take();
    for (size_t n = 0; n < known; n++) {
        MUST(filler.remove(50 + n).status == Status::absent);
        for (size_t changed = 0; changed <= n; changed++) {
            MUST(filler.fill(50 + changed, oldest, {1}).status == Status::stale);
        }
        MUST(filler.fill(n, oldest, {1}).status == Status::ok);
    }
    const Ticket newer = filler.tickets().take();
    MUST(filler.remove(7).status == Status::absent && filler.fill(30, oldest, {1}).status == Status::stale);
    MUST(filler.fill(30, newer, {1}).status == Status::ok && filler.fill(7, newer, {1}).status == Status::stale);
    MUST(filler.fill(7, filler.tickets().take(), {1}).status == Status::ok);
    // No Filler gave this ticket.
    MUST(filler.fill(31, Ticket(1000), {1}).status == Status::stale);
}

// A filler moves with its handle, and gives it back.
static void a_filler_that_moves() {
    std::vector<Handle<1>> handles;
    Filler<1> filler = filler_of(10, handles);
    const Ticket ticket = filler.tickets().take();
    Filler<1> moved = std::move(filler);
    MUST(moved.remove(1).status == Status::absent && moved.fill(1, ticket, {10}).status == Status::stale);
    MUST(handles[0].try_put(1, {11}).status == Status::held);
    handles[1] = moved.writing().disown();
    MUST(handles[1].is_open() && handles[0].try_put(1, {11}).status == Status::ok && moved.put(1, {12}).status == Status::closed);
}

int main() {
    lost_update();
    lost_put();
    refused_put();
    known_changes(3, 3);
    known_changes(1, 1);
    known_changes(0, 1);
    a_filler_that_moves();
    MUST(std::string(text(Status::stale)) == "the store may have changed since the value was read");
    return outcome("fills");
}
