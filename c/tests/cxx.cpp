// The C++ header: handles move and close themselves, and answers are as in C. Compiled as C++17 and as C++20.
#include "cefrodil.hpp"
#include "must.h"
#include <cstdlib>
#include <new>
#include <thread>
#include <type_traits>
#include <utility>

using cefrodil::Handle;
using cefrodil::Status;
using cefrodil::Writing;
using cefrodil::inside::OpenHandle;

static_assert(!std::is_copy_constructible_v<Handle<2>> && std::is_nothrow_move_constructible_v<Handle<2>>);
static_assert(!std::is_copy_assignable_v<Handle<2>> && std::is_nothrow_move_assignable_v<Handle<2>>);
static_assert(!std::is_copy_constructible_v<Writing<2>> && std::is_nothrow_move_constructible_v<Writing<2>>);
static_assert(!std::is_copy_assignable_v<Writing<2>> && std::is_nothrow_move_assignable_v<Writing<2>>);
static_assert(!std::is_convertible_v<Status, bool>);
// A handle has one width, and what it is made of is none.
static_assert(!std::is_constructible_v<Handle<4>, Handle<1>>);
static_assert(!std::is_default_constructible_v<OpenHandle> && !std::is_move_constructible_v<OpenHandle>);
static_assert(!std::is_default_constructible_v<cefrodil::inside::Calls<1>> && !std::is_move_constructible_v<cefrodil::inside::Calls<1>>);
// A guard is no handle, nor does it become one, but by its end.
static_assert(!std::is_constructible_v<Handle<1>, Writing<1>> && !std::is_convertible_v<Writing<1> &, OpenHandle &>);
static_assert(!std::is_constructible_v<Writing<1>, Handle<1>> && !std::is_assignable_v<Handle<1> &, Writing<1>>);

template <class Any> Any &any() noexcept;
using Words = std::vector<uint64_t>;
// A handle that nobody keeps can't be lent, and only one that is given away can be owned.
template <class Lent, class = void> constexpr bool can_be_lent = false;
template <class Lent> constexpr bool can_be_lent<Lent, std::void_t<decltype(std::declval<Lent>().hold(any<Writing<1>>()))>> = true;
template <class Given, class = void> constexpr bool can_be_owned = false;
template <class Given> constexpr bool can_be_owned<Given, std::void_t<decltype(any<Writing<1>>().own(std::declval<Given>()))>> = true;
static_assert(can_be_lent<Handle<1> &> && !can_be_lent<Handle<1>> && can_be_owned<Handle<1>> && !can_be_owned<Handle<1> &>);

// No call throws, nor do those that no call of C has.
static_assert(noexcept(any<Handle<1>>().close()) && noexcept(any<Handle<1>>().is_open()) && noexcept(any<Handle<1>>().raw()));
static_assert(noexcept(any<Handle<1>>().meter()) && noexcept(any<const cefrodil::Meter>().counts()));
static_assert(noexcept(any<Writing<1>>().own(std::declval<Handle<1>>())) && noexcept(any<Writing<1>>().disown()));
static_assert(noexcept(any<Handle<1>>().hold_within(1, any<Writing<1>>())) && noexcept(any<Writing<1>>().end()) && noexcept(any<Writing<1>>().holds()));
static_assert(noexcept(any<Writing<1>>().meter()) && noexcept(any<Writing<1>>().raw()));
static_assert(std::is_nothrow_default_constructible_v<Handle<1>> && std::is_nothrow_default_constructible_v<Writing<1>>);
static_assert(noexcept(cefrodil::shape_for_items(1)) && noexcept(cefrodil::text(Status::ok)));
static_assert(noexcept(cefrodil::to_words(1)) && noexcept(cefrodil::from_words<int>({1})));
// Openings take memory, and don't throw either.
static_assert(noexcept(cefrodil::open(any<cefrodil_shape>(), 4, 1, any<std::vector<Handle<1>>>())));
static_assert(noexcept(cefrodil::open_with(any<cefrodil_shape>(), 4, 1, any<Words>(), any<std::vector<Handle<1>>>(), any<std::vector<Status>>())));

// One handle writes for good, and others look up.
static void one_writes(const cefrodil_shape &shape) {
    std::vector<Handle<2>> handles;
    Writing<2> writing;
    MUST(cefrodil::open(shape, 1, 0, handles) == Status::bad_handles && handles.empty());
    MUST(cefrodil::open(shape, 1, size_t(1) << 40, handles) == Status::bad_handles && handles.empty());
    MUST(cefrodil::open(shape, 1, 3, handles) == Status::ok && handles.size() == 3 && handles[1].is_open());
    MUST(handles[0].get(1).status == Status::absent && !handles[0].get(1).value);
    MUST(writing.put(1, {7, 8}).status == Status::closed && writing.own(std::move(handles[2])) == Status::ok && !handles[2].is_open());
    MUST(writing.put(1, {7, 8}).status == Status::ok);
    const cefrodil::Answer<2> found = handles[0].get(1);
    MUST(found.value && (*found.value)[1] == 8 && found.at == 1 && found.since == 1);
    const uint64_t keys[2] = {2, 1};
    std::array<uint64_t, 2> values[2] = {{5, 6}, {5, 6}};
    cefrodil_answer answers[2];
    MUST(handles[1].get_many(keys, 2, values, answers) == Status::ok && handles[1].get_many(nullptr, 0, nullptr, nullptr) == Status::ok);
    MUST(answers[0].status == CEFRODIL_ABSENT && values[0][0] == 5 && answers[1].status == CEFRODIL_OK && values[1][1] == 8);
    MUST(writing.put_if(1, 9, {0, 0}).status == Status::changed && writing.put(1, {7, 9}).renewed);
    uint64_t keys_now = 0, most = 0, moment = 0;
    MUST(writing.len(keys_now) == Status::ok && writing.capacity(most) == Status::ok && writing.moment(moment) == Status::ok);
    MUST(handles[0].capacity(keys_now) == Status::ok && keys_now == most && writing.len(keys_now) == Status::ok);
    MUST(keys_now == 1 && most == shape.items && moment == 2 && (*writing.get(1).value)[1] == 9);
    std::vector<uint64_t> list;
    MUST(writing.entries(list) == Status::ok && list.size() == 3 && list[0] == 1 && list[2] == 9);
    Writing<2> moved = std::move(writing);
    MUST(!writing.holds() && writing.put(1, {0, 0}).status == Status::closed);
    MUST(writing.entries(list) == Status::closed && list.empty());
    MUST(moved.remove(1).status == Status::ok && handles[1].get(1).at == 3);
    MUST(moved.entries(list) == Status::ok && list.empty());
    moved.end();
    MUST(!moved.holds() && moved.get(1).status == Status::closed);
    MUST(handles[0].close() == Status::ok && handles[0].close() == Status::closed);
    // Nobody need look at how a close ends.
    handles[1].close();
    MUST(!handles[1].is_open() && handles[1].get(1).status == Status::closed);
}

// Handles that are opened take the place of others, which are closed. Unless they open, the others stay.
static void opened_again(const cefrodil_shape &shape) {
    std::vector<Handle<1>> handles;
    MUST(cefrodil::open(shape, 4, 2, handles) == Status::ok && handles[1].try_put(1, {7}).status == Status::ok);
    MUST(cefrodil::open(shape, 3, 3, handles) == Status::bad_shards && handles.size() == 2 && (*handles[0].get(1).value)[0] == 7);
    MUST(cefrodil::open(shape, 4, 3, handles) == Status::ok && handles.size() == 3 && !handles[0].get(1).value);
}

// The entries of one cache open another. What a full shard leaves out has a status.
static void opened_with(const cefrodil_shape &part) {
    std::vector<Handle<1>> handles, others;
    std::vector<Status> statuses;
    std::vector<uint64_t> list{1, 10, 2, 20};
    MUST(cefrodil::open_with(part, 4, 2, list, handles, statuses) == Status::ok && handles.size() == 2);
    MUST(statuses.size() == 2 && statuses[0] == Status::ok && statuses[1] == Status::ok);
    for (Handle<1> &handle : handles) {
        MUST((*handle.get(2).value)[0] == 20 && (*handle.get(1).value)[0] == 10 && !handle.get(3).value);
    }
    MUST(handles[1].try_entries(list) == Status::ok && list.size() == 4);
    cefrodil_shape small = part;
    small.items = 1;
    list.insert(list.end(), {1, 11, 3, 30});
    MUST(cefrodil::open_with(small, 1, 1, list, others, statuses) == Status::ok && statuses.size() == 4);
    MUST(statuses[0] == Status::ok && (statuses[1] == Status::no_item) && (statuses[3] == Status::no_item));
    MUST((statuses[2] == Status::ok) == (list[0] == 1) && others[0].get(list[0]).value.has_value());
    list.push_back(3);
    MUST(cefrodil::open_with(part, 3, 1, list, handles, statuses) == Status::bad_count && handles.size() == 2 && statuses.size() == 4);
    list.pop_back();
    MUST(cefrodil::open_with(part, 3, 1, list, handles, statuses) == Status::bad_shards && handles[1].is_open() && statuses.size() == 4);
    MUST(cefrodil::open_with(part, 4, 0, list, others, statuses) == Status::bad_handles && others.size() == 1);
    MUST(cefrodil::open_with(part, 4, 2, {}, others, statuses) == Status::ok && statuses.empty() && others.size() == 2);
}

// Types of the program. The second has four bytes of padding after its last member, and the third one byte between its members.
struct Account {
    double rate;
    uint32_t owner;
    char name[12];
};
struct Padded {
    uint64_t owner;
    uint32_t rate;
};
struct Gapped {
    uint8_t kind;
    uint16_t size;
};
struct Odd {
    uint32_t first, second, third;
};
struct Rated {
    float rate;
    uint32_t owner;
};
template <> inline constexpr bool cefrodil::has_no_padding<Account> = true;

static_assert(cefrodil::is_value<Account> && cefrodil::is_value<Odd> && cefrodil::is_value<uint16_t> && cefrodil::is_value<const char *>);
static_assert(!cefrodil::is_value<Padded> && !cefrodil::is_value<Gapped> && !cefrodil::is_value<std::optional<uint32_t>>);
// A float has no padding, but a struct that has one must say so.
static_assert(cefrodil::is_value<float> && cefrodil::is_value<const double> && cefrodil::is_value<std::array<double, 8>> && cefrodil::is_value<float[3]>);
static_assert(!cefrodil::is_value<Rated> && !cefrodil::is_value<long double> && !cefrodil::is_value<std::array<Padded, 2>>);
static_assert(cefrodil::is_value<char[64]> && !cefrodil::is_value<char[65]> && !cefrodil::is_value<std::vector<int>>);
static_assert(cefrodil::words_of<Account> == 3 && cefrodil::words_of<Odd> == 2 && cefrodil::words_of<char> == 1 && cefrodil::words_of<char[9]> == 2);

// A type of the program goes in and comes out.
static void typed(const cefrodil_shape &shape) {
    std::vector<Handle<cefrodil::words_of<Account>>> handles;
    MUST(cefrodil::open(shape, 1, 1, handles) == Status::ok);
    MUST(handles[0].try_put(1, cefrodil::to_words(Account{0.5, 70, "seventy"})).status == Status::ok);
    const auto found = handles[0].get(1);
    MUST(found.value);
    const auto account = cefrodil::from_words<Account>(*found.value);
    MUST(account.rate == 0.5 && account.owner == 70 && account.name[6] == 'y' && account.name[7] == 0);
    const auto words = cefrodil::to_words(Odd{1, 2, 3});
    const auto odd = cefrodil::from_words<Odd>(words);
    MUST(words[1] == 3 && odd.first == 1 && odd.second == 2 && odd.third == 3);
    MUST(cefrodil::to_words(uint16_t(7))[0] == 7 && cefrodil::from_words<uint32_t>(cefrodil::to_words(uint32_t(70000))) == 70000);
    MUST(cefrodil::from_words<float>(cefrodil::to_words(0.5f)) == 0.5f && cefrodil::to_words(0.0) != cefrodil::to_words(-0.0));
}

// The bytes after a type are 0, whatever was in memory before.
static void bytes_after_a_type() {
    alignas(8) unsigned char place[64];
    for (volatile unsigned char &byte : place) {
        byte = 0xff;
    }
    std::array<char, 57> letters;
    letters.fill('a');
    const auto *words = new (place) std::array<uint64_t, 8>(cefrodil::to_words(letters));
    MUST((*words)[0] == 0x6161616161616161 && (*words)[7] == 0x61);
}

static void by_turns(const cefrodil_shape &shape, uint32_t shards) {
    std::vector<Handle<1>> handles;
    std::vector<uint64_t> list;
    MUST(cefrodil::open(shape, shards, 3, handles) == Status::ok);
    MUST(handles[0].try_put(1, {0}).status == Status::ok && handles[1].try_entries(list) == Status::ok && list.size() == 2 && list[0] == 1);
    std::vector<std::thread> threads;
    for (Handle<1> &handle : handles) {
        threads.emplace_back([mine = std::move(handle)]() mutable {
            for (int n = 0; n < 1000;) {
                const cefrodil::Answer<1> found = mine.get_or_turn(1);
                if (found.value && mine.try_put_if(1, found.since, {(*found.value)[0] + 1}).status == Status::ok) {
                    n++;
                }
            }
            const Status status = mine.put_within(100, 2, {7}).status;
            if (status != Status::ok && status != Status::held) {
                std::abort();
            }
        });
    }
    for (std::thread &thread : threads) {
        thread.join();
    }
}

// A call is made again only while it is held, and at most as often as it may be. This one is held so often, and then takes key 9.
static int calls_within(Handle<1> &handle, uint32_t tries, int held, Status last) {
    int calls = 0;
    const auto told = handle.within(tries, [&](Handle<1> &mine) {
        calls++;
        cefrodil::Swapped<1> taken = mine.try_take(9);
        taken.status = calls > held ? taken.status : Status::held;
        return taken;
    });
    MUST(told.status == last);
    return calls;
}

static void within(Handle<1> &handle) {
    MUST(calls_within(handle, 5, 0, Status::absent) == 1 && calls_within(handle, 5, 3, Status::absent) == 4);
    MUST(calls_within(handle, 5, 4, Status::absent) == 5 && calls_within(handle, 5, 5, Status::held) == 5);
    MUST(calls_within(handle, 1, 1, Status::held) == 1 && calls_within(handle, 0, 0, Status::absent) == 1);
    std::vector<uint64_t> list;
    MUST(handle.within(3, [&](Handle<1> &mine) { return mine.try_entries(list); }) == Status::ok);
    int calls = 0;
    const auto busy = [&](Handle<1> &) { return calls++, Status::busy; };
    MUST(handle.within(5, busy) == Status::busy && calls == 1);
}

int main() {
    const std::optional<cefrodil_shape> shape = cefrodil::shape_for_items(100), part = cefrodil::shape_for_items(100, 4);
    MUST(shape && part && !cefrodil::shape_for_items(0) && !cefrodil::shape_for_items(0, 4) && !cefrodil::shape_for_items(100, 3));
    MUST(shape->items >= 100 && part->items < shape->items && 4 * part->items >= 100);
    one_writes(*shape);
    opened_again(*part);
    opened_with(*part);
    typed(*shape);
    bytes_after_a_type();
    std::vector<Handle<1>> handles;
    MUST(cefrodil::open(*shape, 1, 1, handles) == Status::ok);
    within(handles[0]);
    by_turns(*shape, 1);
    by_turns(*part, 4);
    MUST(cefrodil::text(Status::bad_shards)[0] == 's');
    return outcome("cxx");
}
