// Each method of C++ for a call of the table. Its arguments have the names of these objects.
#ifndef EACH_METHOD_HPP
#define EACH_METHOD_HPP

#include "cefrodil.hpp"

static cefrodil::Handle<1> handle;
static cefrodil::Writing<1> writing;
static uint64_t number = 9;
static std::vector<uint64_t> list;
static std::vector<cefrodil::Handle<1>> handles;

// .ci/calls: methods
#define EACH_METHOD(row) \
    row(handle, more, (1, handles)) \
    row(handle, get, (1)) \
    row(handle, get_many, (nullptr, 0, nullptr, nullptr)) \
    row(handle, get_or_turn, (1)) \
    row(handle, try_peek, (1)) \
    row(handle, try_put, (1, {1})) \
    row(handle, try_put_if, (1, 1, {1})) \
    row(handle, try_put_if_absent, (1, {1})) \
    row(handle, try_put_bounded, (1, 1, {1})) \
    row(handle, try_put_if_absent_bounded, (1, 1, {1})) \
    row(handle, try_remove, (1)) \
    row(handle, try_put_many, (nullptr, 0, nullptr, nullptr)) \
    row(handle, put_within, (1, 1, {1})) \
    row(handle, try_swap, (1, {1})) \
    row(handle, try_swap_if, (1, 1, {1})) \
    row(handle, try_swap_if_absent, (1, {1})) \
    row(handle, try_swap_bounded, (1, 1, {1})) \
    row(handle, try_swap_if_absent_bounded, (1, 1, {1})) \
    row(handle, try_take, (1)) \
    row(handle, try_take_if, (1, 1)) \
    row(handle, try_evict, (1)) \
    row(handle, try_entry_at, (1, 0)) \
    row(handle, hold, (writing)) \
    row(handle, try_moment, (number)) \
    row(handle, try_len, (number)) \
    row(handle, capacity, (number)) \
    row(handle, try_entries, (list)) \
    row(handle, try_stamped_entries, (list)) \
    row(writing, more, (1, handles)) \
    row(writing, get, (1)) \
    row(writing, peek, (1)) \
    row(writing, put_if, (1, 1, {1})) \
    row(writing, put_if_absent, (1, {1})) \
    row(writing, put_bounded, (1, 1, {1})) \
    row(writing, put_if_absent_bounded, (1, 1, {1})) \
    row(writing, put_many, (nullptr, 0, nullptr, nullptr)) \
    row(writing, swap, (1, {1})) \
    row(writing, swap_if, (1, 1, {1})) \
    row(writing, swap_if_absent, (1, {1})) \
    row(writing, swap_bounded, (1, 1, {1})) \
    row(writing, swap_if_absent_bounded, (1, 1, {1})) \
    row(writing, take, (1)) \
    row(writing, take_if, (1, 1)) \
    row(writing, evict, (1)) \
    row(writing, entry_at, (1, 0)) \
    row(writing, moment, (number)) \
    row(writing, len, (number)) \
    row(writing, capacity, (number)) \
    row(writing, entries, (list)) \
    row(writing, stamped_entries, (list))
#define EACH_UNCHECKED_METHOD(row) \
    row(handle, prefetch, (1)) \
    row(writing, prefetch, (1)) \
    row(writing, put, (1, {1})) \
    row(writing, remove, (1))
// .ci/calls: end

#endif
