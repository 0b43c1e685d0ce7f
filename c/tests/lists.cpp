// A list is one call of the archive, with room for each entry. So a handle tries once for a turn.
#include "cefrodil.h"
#include <cstddef>
#include <cstdint>

static int calls;
static size_t last_room;

static cefrodil_status counted_entries(cefrodil_handle *handle, uint64_t *entries, size_t words, uint64_t *count) {
    calls++;
    last_room = words;
    return cefrodil_entries_or_none(handle, entries, words, count);
}
static cefrodil_status counted_stamped_entries(cefrodil_handle *handle, uint64_t *entries, size_t words, uint64_t *count) {
    calls++;
    last_room = words;
    return cefrodil_stamped_entries_or_none(handle, entries, words, count);
}

#define cefrodil_entries_or_none counted_entries
#define cefrodil_stamped_entries_or_none counted_stamped_entries
#include "cefrodil.hpp"
#include "must.h"

using namespace cefrodil;

// One more call of the archive, with room for `room` words. The list has the others' length, and nothing else.
static bool once(Status status, const std::vector<uint64_t> &list, size_t words, size_t room) {
    static int before;
    return status == Status::ok && list.size() == words && ++before == calls && last_room == room;
}

// A guard knows how many entries there are, and a handle how many there can be.
static void of_one_shard(const cefrodil_shape &shape) {
    std::vector<Handle<2>> handles;
    Writing<2> writing;
    std::vector<uint64_t> list;
    MUST(open(shape, 1, 1, handles) == Status::ok && handles[0].hold(writing) == Status::ok && once(writing.entries(list), list, 0, 0));
    for (uint64_t key = 0; key < 100; key++) {
        MUST(writing.put(key, {key, key}).status == Status::ok);
    }
    MUST(once(writing.entries(list), list, 300, 300) && writing.remove(7).status == Status::ok && once(writing.entries(list), list, 297, 297));
    writing.end();
    MUST(once(handles[0].try_entries(list), list, 297, 300));
}

static void of_four_shards(const cefrodil_shape &shape) {
    std::vector<Handle<2>> handles;
    std::vector<uint64_t> list;
    MUST(open(shape, 4, 1, handles) == Status::ok && handles[0].try_put(1, {2, 3}).status == Status::ok);
    MUST(once(handles[0].try_entries(list), list, 3, 1200) && list == std::vector<uint64_t>({1, 2, 3}));
}

// With stamps each entry has one word more.
static void with_stamps(const cefrodil_shape &shape, uint32_t shards) {
    std::vector<Handle<2>> handles;
    Writing<2> writing;
    std::vector<uint64_t> list;
    MUST(open(shape, shards, 1, handles) == Status::ok && handles[0].hold(writing) == Status::ok && once(writing.stamped_entries(list), list, 0, 0));
    MUST(writing.put(1, {7, 8}).status == Status::ok && writing.put(1, {9, 10}).status == Status::ok);
    MUST(once(writing.stamped_entries(list), list, 4, 4) && list == std::vector<uint64_t>({1, 9, 10, 2}));
    writing.end();
    MUST(once(handles[0].try_stamped_entries(list), list, 4, 400 * shards) && list == std::vector<uint64_t>({1, 9, 10, 2}));
}

int main() {
    const cefrodil_shape shape{uint64_t(1) << 62, 64, 100, 64, 5, 8, CEFRODIL_MIX_FULL, CEFRODIL_POLICY_SCAN_RESISTANT};
    of_one_shard(shape);
    of_four_shards(shape);
    with_stamps(shape, 1);
    with_stamps(shape, 4);
    return outcome("lists");
}
