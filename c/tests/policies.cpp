// Which key gives way, by each policy in C++: by handles and by a guard. Maps have the scan-resistant one.
#include "cefrodil_object_map.hpp"
#include "must.h"

using namespace cefrodil;

static cefrodil_shape shape_of(uint32_t policy) {
    cefrodil_shape shape = *shape_for_items(4);
    MUST(shape.policy == CEFRODIL_POLICY_SCAN_RESISTANT);
    shape.policy = policy;
    return shape;
}

// The keys that give way to keys 5 to 11, one to each. Key 2 is used once, before the second of them is put.
using Evicted = std::vector<uint64_t>;
static const Evicted by_scan_resistant{1, 3, 4, 5, 6, 7, 8}, by_clock{1, 3, 4, 2, 5, 6, 7};

// Puts a key by one of the two handles, or by a guard that it lends or gives away meanwhile.
static std::optional<uint64_t> put(std::vector<Handle<1>> &handles, uint64_t key) {
    Writing<1> writing;
    if (key % 4 < 2) {
        return handles[key % 4].try_put(key, {key}).evicted;
    }
    if (key % 4 == 2) {
        MUST(handles[0].hold(writing) == Status::ok);
        return writing.put(key, {key}).evicted;
    }
    MUST(writing.own(std::move(handles[1])) == Status::ok);
    const std::optional<uint64_t> evicted = writing.put(key, {key}).evicted;
    handles[1] = writing.disown();
    return evicted;
}

static Evicted evicted_after(uint64_t first, std::vector<Handle<1>> &handles) {
    Evicted all;
    for (uint64_t key = first; key <= 11; key++) {
        if (key == 6) {
            MUST(handles[1].get(2).status == Status::ok);
        }
        if (const std::optional<uint64_t> evicted = put(handles, key)) {
            all.push_back(*evicted);
        }
    }
    return all;
}

// In a cache from its opening on, and in one that is opened with the entries of a full one.
static void gives_way(uint32_t policy, const Evicted &expected) {
    const cefrodil_shape shape = shape_of(policy);
    std::vector<Handle<1>> handles, later;
    std::vector<Status> statuses;
    MUST(open(shape, 1, 1, handles) == Status::ok && handles[0].more(1, later) == Status::ok);
    handles.push_back(std::move(later[0]));
    MUST(evicted_after(1, handles) == expected);
    MUST(open_with(shape, 1, 2, {1, 1, 2, 2, 3, 3, 4, 4}, handles, statuses) == Status::ok && evicted_after(5, handles) == expected);
}

// Keys 1 to 4 give way in this order, without a put. Key 2 was used, which CLOCK's hand forgets before it evicts. Then the cache is empty.
static void gives_way_without_a_put(uint32_t policy, const Evicted &expected) {
    Evicted all;
    std::vector<Handle<1>> handles;
    Writing<1> writing;
    MUST(open(shape_of(policy), 1, 2, handles) == Status::ok);
    for (uint64_t key = 1; key <= 4; key++) {
        MUST(handles[0].try_put(key, {key}).status == Status::ok);
    }
    MUST(handles[0].get(2).status == Status::ok);
    all.push_back(handles[1].try_evict(9).evicted.value_or(0));
    MUST(handles[0].hold(writing) == Status::ok && handles[1].try_evict().status == Status::held);
    for (int n = 0; n < 3; n++) {
        all.push_back(writing.evict(n).evicted.value_or(0));
    }
    MUST(all == expected && writing.evict().status == Status::absent);
}

// Only the shard of the named key gives one up: that which has the keys with this bit, as they are not mixed.
static void of_a_shard() {
    const uint64_t bit = uint64_t(1) << 48;
    cefrodil_shape shape = *shape_for_items(20, 2);
    shape.mix = CEFRODIL_MIX_NONE;
    std::vector<Handle<1>> handles;
    MUST(open(shape, 2, 1, handles) == Status::ok);
    MUST(handles[0].try_put(1, {10}).at == 1 && handles[0].try_put(bit + 1, {11}).at == 1 && handles[0].try_put(2, {20}).at == 2);
    const Swapped<1> first = handles[0].try_evict(bit), none = handles[0].try_evict(bit);
    MUST(first.evicted == bit + 1 && first.at == 2 && first.old_since == 1 && none.status == Status::absent && none.at == 2);
    MUST(handles[0].try_evict().evicted == 1u && handles[0].try_evict().evicted == 2u && handles[0].try_evict().at == 4);
}

static void bad_policy() {
    std::vector<Handle<1>> handles;
    std::vector<Status> statuses;
    MUST(open(shape_of(2), 3, 0, handles) == Status::bad_policy && handles.empty());
    MUST(open_with(shape_of(2), 1, 1, {1, 1}, handles, statuses) == Status::bad_policy && handles.empty() && statuses.empty());
}

// Of the four keys that are left one was used: 2. By CLOCK it would be gone.
template <class Map> static void a_map() {
    Map map;
    MUST(map.open({4, 1, 2}) == Status::ok);
    for (uint64_t key = 1; key <= 8; key++) {
        MUST(map.insert(key, uint64_t(key)).status == Status::ok && (key != 5 || map.find(2) == 2u));
    }
    for (uint64_t key = 1; key <= 8; key++) {
        MUST(map.find(key).has_value() == (key == 2 || key >= 6));
    }
}

// Keys that are asked for once evict none that was asked for again.
template <class Map> static void a_scan() {
    Map map;
    MUST(map.open({100, 1}) == Status::ok);
    for (uint64_t key = 0; key < 50; key++) {
        MUST(map.insert(key, uint64_t(key)).status == Status::ok && map.find(key) == key);
    }
    for (uint64_t key = 1000; key < 3000; key++) {
        MUST(map.insert(key, uint64_t(key)).status == Status::ok);
    }
    for (uint64_t key = 0; key < 50; key++) {
        MUST(map.find(key) == key);
    }
}

int main() {
    gives_way(CEFRODIL_POLICY_SCAN_RESISTANT, by_scan_resistant);
    gives_way(CEFRODIL_POLICY_CLOCK, by_clock);
    gives_way_without_a_put(CEFRODIL_POLICY_SCAN_RESISTANT, {1, 3, 4, 2});
    gives_way_without_a_put(CEFRODIL_POLICY_CLOCK, {1, 2, 3, 4});
    of_a_shard();
    bad_policy();
    a_map<map<uint64_t, uint64_t>>();
    a_map<object_map<uint64_t, uint64_t>>();
    a_scan<map<uint64_t, uint64_t>>();
    a_scan<object_map<uint64_t, uint64_t>>();
    return outcome("policies");
}
