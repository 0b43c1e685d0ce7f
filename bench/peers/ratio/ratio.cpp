// How many lookups find their key in a map of C++, for `bench/map_hits.py` and `bench/mixed_sizes.py`: the same work as in src/main.rs.
//
// usage: ratio CAPACITY CACHE [SHARDS BOUND]     CACHE: map; objects by their number; weights by their weight; or sizes. It prints a line of 0 and 1:
// which lookups hit.
#include "cefrodil_object_map.hpp"
#include <cstdio>
#include <cstdlib>
#include <string>
#include <vector>

using cefrodil::Status;

static std::vector<uint64_t> input() {
    std::vector<uint64_t> keys;
    uint64_t some[4096];
    for (size_t count = 0; (count = std::fread(some, sizeof *some, 4096, stdin)) != 0;) {
        keys.insert(keys.end(), some, some + count);
    }
    return keys;
}

// Looks the key up, and puts it if it is missed. '0' or '1': whether it was found.
template <class Map> char look_up(Map &map, uint64_t key) {
    const std::optional<uint64_t> found = map.find(key);
    if (found ? *found != key : map.insert_or_assign(key, uint64_t(key)).status != Status::ok) {
        std::abort();
    }
    return found ? '1' : '0';
}
template <class Map> void look_all_up(Map &map) {
    std::string hits;
    for (const uint64_t key : input()) {
        hits += look_up(map, key);
    }
    std::puts(hits.c_str());
}

// One shard, so that the map has room for as many entries as were asked for.
static int of_map(uint32_t capacity) {
    cefrodil::map<uint64_t, uint64_t> map;
    if (map.open({capacity, 1, 2}) != Status::ok || map.capacity() != capacity) {
        return 1;
    }
    look_all_up(map);
    return 0;
}
using Objects = cefrodil::object_map<uint64_t, uint64_t>;
static int of_objects(uint32_t capacity, uint32_t shards, const Objects::Rules &rules) {
    Objects map;
    if (map.open({capacity, shards, 2}, rules) != Status::ok) {
        return 1;
    }
    look_all_up(map);
    return 0;
}

int main(int argc, char **argv) {
    if (argc != 3 && argc != 5) {
        return 2;
    }
    const auto number = [&](int at) { return std::strtoull(argv[at], nullptr, 10); };
    const auto capacity = static_cast<uint32_t>(number(1));
    const std::string cache = argv[2];
    if (cache == "sizes") {
        // The last bits of a key are its size.
        return of_objects(capacity, static_cast<uint32_t>(number(3)), {nullptr, [](uint64_t key, uint64_t) { return key % (1 << 17); }, number(4)});
    }
    if (cache == "weights") {
        // Its index has room for more.
        return of_objects(2 * capacity, 1, {nullptr, [](uint64_t, uint64_t) { return uint64_t(1); }, capacity});
    }
    return cache == "map" ? of_map(capacity) : of_objects(capacity, 1, {});
}
