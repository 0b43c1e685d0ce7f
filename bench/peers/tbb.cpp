#include "harness.hpp"
#include <tbb/concurrent_hash_map.h>

struct Compare {
    size_t hash(uint64_t key) const { return mix(key); }
    bool equal(uint64_t one, uint64_t other) const { return one == other; }
};

struct Tbb {
    typedef tbb::concurrent_hash_map<uint64_t, Value, Compare> Map;
    Map map;

    explicit Tbb(size_t keys) : map(keys) {}

    bool get(uint64_t key, Value &value) {
        Map::const_accessor found;
        if (!map.find(found, key)) return false;
        value = found->second;
        return true;
    }

    bool put(uint64_t key, const Value &value) {
        Map::accessor found;
        map.insert(found, key);
        found->second = value;
        return true;
    }

    size_t slots() { return 0; }
    void enter() {}
    void tick() {}
    void leave() {}
};

int main(int count, char **words) { return contest<Tbb>(count, words); }
